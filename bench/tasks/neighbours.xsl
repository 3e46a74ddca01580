<xsl:stylesheet version="1.0" xmlns:xsl="http://www.w3.org/1999/XSL/Transform">
  <!-- By a key: looking for the neighbours among the siblings is slower. -->
  <xsl:strip-space elements="*"/>
  <xsl:key name="day" match="e" use="@day"/>
  <xsl:template match="log">
    <log>
      <xsl:for-each select="e[generate-id() = generate-id(key('day', @day)[1])]">
        <day n="{@day}"><xsl:apply-templates select="key('day', @day)"/></day>
      </xsl:for-each>
    </log>
  </xsl:template>
  <xsl:template match="e"><e><xsl:value-of select="."/></e></xsl:template>
</xsl:stylesheet>
