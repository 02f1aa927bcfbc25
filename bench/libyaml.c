/* libyaml's document of a text, built and thrown away. */
#include <yaml.h>

int libyaml_reads(const unsigned char *text, size_t len) {
    yaml_parser_t parser;
    yaml_document_t document;
    if (!yaml_parser_initialize(&parser)) return 0;
    yaml_parser_set_input_string(&parser, text, len);
    int read = yaml_parser_load(&parser, &document);
    if (read) yaml_document_delete(&document);
    yaml_parser_delete(&parser);
    return read;
}
