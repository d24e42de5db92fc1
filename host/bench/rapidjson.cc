// RapidJSON's validating SAX reader, a mark for stage A.
#include <rapidjson/reader.h>

using namespace rapidjson;

// How many bytes of a text that ends with NUL are read before one that no JSON text in UTF-8 goes on with; nothing is done with what is read. Bytes with
// a length, or numbers left as text, would take more instructions.
extern "C" std::size_t rapidjson_reads(const char *text) {
    StringStream stream(text);
    BaseReaderHandler<> handler;
    Reader reader;
    ParseResult result = reader.Parse<kParseValidateEncodingFlag>(stream, handler);
    return result.IsError() ? result.Offset() : stream.Tell();
}
