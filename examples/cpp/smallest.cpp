// The smallest program in C++: is this text a document?
#include <iostream>
#include <string>
#include <vector>

#include "deckmarten.h"

int main() {
    const std::string text = "[jobs.main]\nledger = \"main.db\"\n";
    const size_t most = DECKMARTEN_TEXT_RECORDS(text.size());
    std::vector<uint8_t> records(DECKMARTEN_RECORD_BYTES(most));
    std::vector<uint32_t> events(DECKMARTEN_SIZE_EVENT * most); // room for one event a record
    const deckmarten_verdict verdict =
        deckmarten_text_fits(reinterpret_cast<const uint8_t *>(text.data()), text.size(), records.data(), records.size(), events.data(), events.size());
    std::cout << (verdict.fits ? "fits" : "does not fit") << '\n';
    return verdict.fits ? 0 : 1;
}
