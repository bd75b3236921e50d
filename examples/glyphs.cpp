// glyphs FONT PPEM TEXT          the characters of a text as pictures, made in one call
//
// c++ -std=c++11 glyphs.cpp $(pkg-config --cflags --libs mkstrike) -o glyphs
// In a checkout: c++ -std=c++11 -Iinclude examples/glyphs.cpp -L. -lmkstrike -o glyphs
// docs/LIBRARY.md says how to make libmkstrike.a there.
#include <clocale>
#include <cstdio>
#include <cstdlib>
#include <fstream>
#include <iterator>
#include <stdexcept>
#include <string>
#include <vector>

#include "mkstrike.h"

// The name of a number that a call returned.
static std::string reason(std::uint32_t number) {
    char name[24];
    mkstrike_reason(number, name, sizeof name);
    return std::to_string(number) + " " + name;
}

// Glyphs of a font at a size: their entries, and their pixels, a byte each.
struct Glyphs {
    std::vector<mkstrike_placed> entries;
    std::vector<std::uint8_t> pixels;
    mkstrike_drawn drawn;

    Glyphs(const std::vector<char> &font, std::uint16_t ppem, const std::vector<std::uint32_t> &codes) : entries(codes.size()) {
        const std::uint8_t *bytes = reinterpret_cast<const std::uint8_t *>(font.data());
        mkstrike_refused why;
        do {
            if (mkstrike_glyphs(bytes, font.size(), 0, ppem, MKSTRIKE_HINTED | MKSTRIKE_DROPOUT_FONT, codes.data(), codes.size(),
                    entries.data(), entries.size(), pixels.data(), pixels.size(), &drawn, &why) != MKSTRIKE_DONE)
                throw std::runtime_error("refused: " + reason(why.number));
        } while (drawn.bytes > pixels.size() && (pixels.resize(drawn.bytes), true));
    }
};

static void print(std::uint32_t code, const mkstrike_placed &entry, const std::vector<std::uint8_t> &pixels) {
    const mkstrike_glyph_info &glyph = entry.glyph;
    std::printf("U+%04X ", static_cast<unsigned>(code));
    if (entry.status != MKSTRIKE_DONE) {
        std::printf("%s\n", reason(entry.status).c_str());
        return;
    }
    std::printf("advance %d\n", static_cast<int>(glyph.dwidth));
    for (std::uint32_t row = 0; row < glyph.height; row++) {
        for (std::uint32_t column = 0; column < glyph.width; column++)
            std::putchar(pixels[entry.offset + row * glyph.stride + column] ? '#' : '.');
        std::putchar('\n');
    }
}

int main(int argc, char **argv) {
    if (argc != 4 || std::setlocale(LC_ALL, "C.UTF-8") == nullptr) {
        std::fputs(argc != 4 ? "usage: glyphs FONT PPEM TEXT\n" : "glyphs: the system has no locale C.UTF-8\n", stderr);
        return 2;
    }
    std::ifstream file(argv[1], std::ios::binary);
    if (!file) {
        std::fprintf(stderr, "glyphs: can't read the font %s\n", argv[1]);
        return 1;
    }
    std::vector<char> font((std::istreambuf_iterator<char>(file)), std::istreambuf_iterator<char>());
    std::vector<wchar_t> text(std::string(argv[3]).size() + 1);
    std::vector<std::uint32_t> codes;
    for (std::size_t i = 0, n = std::mbstowcs(text.data(), argv[3], text.size()); n != std::size_t(-1) && i < n; i++)
        codes.push_back(static_cast<std::uint32_t>(text[i]));
    try {
        Glyphs glyphs(font, static_cast<std::uint16_t>(std::atoi(argv[2])), codes);
        for (std::size_t i = 0; i < codes.size(); i++) print(codes[i], glyphs.entries[i], glyphs.pixels);
    } catch (const std::exception &why) {
        std::fprintf(stderr, "%s\n", why.what());
        return 1;
    }
    return 0;
}
