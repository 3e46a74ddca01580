<xsl:stylesheet version="1.0" xmlns:xsl="http://www.w3.org/1999/XSL/Transform">
  <xsl:strip-space elements="*"/>
  <xsl:template match="products"><table><xsl:apply-templates/></table></xsl:template>
  <xsl:template match="product"><tr class="r{position() mod 2}"><xsl:apply-templates/></tr></xsl:template>
  <xsl:template match="name"><td><xsl:value-of select="."/></td></xsl:template>
  <xsl:template match="price"><td><xsl:value-of select="concat(@cur, ' ', floor(. div 100))"/></td></xsl:template>
</xsl:stylesheet>
