// Reads a JSON text by simdjson, and prints it without blanks, and a newline.
#include <iostream>
#include <simdjson.h>

int main() {
    std::ios::sync_with_stdio(false);
    simdjson::padded_string text;
    if (simdjson::padded_string::load("/dev/stdin").get(text)) {
        return 2;
    }
    simdjson::dom::parser parser;
    simdjson::dom::element value;
    if (parser.parse(text).get(value)) {
        return 1;
    }
    std::cout << simdjson::minify(value) << '\n';
    return std::cout.flush() ? 0 : 4;
}
