<xsl:stylesheet version="1.0" xmlns:xsl="http://www.w3.org/1999/XSL/Transform">
  <xsl:strip-space elements="*"/>
  <xsl:key name="price" match="price" use="@sku"/>
  <xsl:variable name="prices" select="document('prices.xml')"/>
  <xsl:template match="order"><order><xsl:apply-templates/></order></xsl:template>
  <xsl:template match="item">
    <xsl:variable name="sku" select="@sku"/>
    <item sku="{$sku}">
      <xsl:for-each select="$prices">
        <xsl:for-each select="key('price', $sku)"><xsl:attribute name="price"><xsl:value-of select="."/></xsl:attribute></xsl:for-each>
      </xsl:for-each>
      <xsl:copy-of select="count"/>
    </item>
  </xsl:template>
</xsl:stylesheet>
