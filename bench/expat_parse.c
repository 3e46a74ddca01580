/* Parses standard input with expat and does nothing with it: what the parse
   alone costs. The handlers are set so that expat prepares their arguments. */
#include <expat.h>
#include <stdio.h>
#include <unistd.h>

static void start(void *data, const XML_Char *name, const XML_Char **attributes)
{ (void)data; (void)name; (void)attributes; }
static void end(void *data, const XML_Char *name)
{ (void)data; (void)name; }
static void characters(void *data, const XML_Char *text, int length)
{ (void)data; (void)text; (void)length; }

int main(void)
{
    static char piece[4096];
    ssize_t length;
    XML_Parser parser = XML_ParserCreate(NULL);
    XML_SetElementHandler(parser, start, end);
    XML_SetCharacterDataHandler(parser, characters);
    do {
        length = read(STDIN_FILENO, piece, sizeof piece);
        if (length < 0 || !XML_Parse(parser, piece, (int)length, length == 0)) {
            fprintf(stderr, "expat_parse: %s\n", length < 0 ? "cannot read"
                    : XML_ErrorString(XML_GetErrorCode(parser)));
            return 1;
        }
    } while (length > 0);
    return 0;
}
