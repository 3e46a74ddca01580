#!/usr/bin/env python3
"""Apply an XSLT sheet as xsltproc does, where only its library is there: by_libxslt.py SHEET < DOCUMENT > RESULT"""

import ctypes
import sys

NO_NETWORK, NO_COPIES_OF_NAMES, CDATA_AS_TEXT = 2048, 2, 16384


def main(sheet):
    xml = ctypes.CDLL("libxml2.so.2")
    xslt = ctypes.CDLL("libxslt.so.1")
    for call in (xml.xmlReadFd, xslt.xsltParseStylesheetFile, xslt.xsltApplyStylesheet):
        call.restype = ctypes.c_void_p
    pointer = ctypes.c_void_p
    style = xslt.xsltParseStylesheetFile(sheet.encode())
    document = xml.xmlReadFd(0, b"-", None, NO_NETWORK | NO_COPIES_OF_NAMES | CDATA_AS_TEXT)
    if not style or not document:
        sys.exit("by_libxslt.py: the sheet or the document isn't accepted")
    result = xslt.xsltApplyStylesheet(pointer(style), pointer(document), None)
    if not result or xslt.xsltSaveResultToFd(1, pointer(result), pointer(style)) < 0:
        sys.exit("by_libxslt.py: the sheet failed")


if __name__ == "__main__":
    main(*sys.argv[1:])
