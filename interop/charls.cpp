// Compares codestreams with what CharLS makes of them, and of the same pictures.
//
//     charls FILM FILE [FILM FILE]..
//     charls code FILM
//
// The second form compares nothing, but writes what CharLS makes of a film's images to standard output, joined: with its own
// headers, and an LSE of its own where P is over 12.
//
// FILM is joined binary Netpbm images, and FILE the codestreams of its images, joined too. Prints a line for each
// comparison that fails, and at the end how many passed and failed. Sections are those of T.87.
//
// Of each image:
// - headers: all bytes of its codestream but the scans' are those that are expected.
// - decoded: CharLS decodes the codestream to the image's samples.
// - scans: CharLS codes the image, without loss and without interleaving, to scans of the same bytes.
//
// The last two only where MAXVAL is 2^P - 1: elsewhere CharLS keeps the RANGE of 2^P, which A.2.1 has from MAXVAL.
#include <charls/charls.h>

#include <algorithm>
#include <cstdint>
#include <cstdio>
#include <cstring>
#include <exception>
#include <fstream>
#include <initializer_list>
#include <iterator>
#include <stdexcept>
#include <string>
#include <vector>

namespace {

using Bytes = std::vector<uint8_t>;

[[noreturn]] void refuse(const std::string &why) { throw std::runtime_error(why); }

Bytes read_file(const char *name) {
    std::ifstream file(name, std::ios::binary);
    if (!file) refuse(std::string("can't open ") + name);
    return Bytes(std::istreambuf_iterator<char>(file), std::istreambuf_iterator<char>());
}

// ------------------------------------------------------------------------------------------------------------ the film

struct Image {
    size_t width, height;
    int maxval;
    std::vector<std::vector<uint16_t>> planes; // each component's samples

    // P: the bits of a sample (C.2.2), of which there are 2 at least.
    int bits() const {
        int bits = 2;
        while (maxval >> bits != 0) ++bits;
        return bits;
    }

    bool has_greatest_maxval() const { return maxval == (1 << bits()) - 1; }
};

// The images of a film without comments.
std::vector<Image> images_of(const Bytes &film) {
    std::vector<Image> images;
    size_t at = 0;
    const auto next = [&] {
        if (at == film.size()) refuse("the film is truncated");
        return film[at++];
    };
    const auto number = [&] {
        int number = 0;
        for (uint8_t byte = next(); byte > ' '; byte = next()) number = number * 10 + byte - '0';
        return number;
    };
    while (at < film.size()) {
        if (next() != 'P') refuse("the film is no Netpbm film");
        const size_t components = number() == 6 ? 3 : 1;
        Image image{};
        image.width = number();
        image.height = number();
        image.maxval = number();
        image.planes.resize(components);
        for (size_t pixel = 0; pixel < image.width * image.height; ++pixel) {
            for (auto &plane : image.planes) {
                const int first = next();
                plane.push_back(image.maxval < 256 ? first : first << 8 | next());
            }
        }
        images.push_back(std::move(image));
    }
    return images;
}

// ----------------------------------------------------------------------------------------------------- the codestreams

constexpr unsigned start_of_image = 0xd8, end_of_image = 0xd9, start_of_scan = 0xda;

// A codestream, the bytes of each of its scans, and all others.
struct Codestream {
    Bytes whole, headers;
    std::vector<Bytes> scans;
};

// The codestream that begins at `at`, which is left behind it.
Codestream codestream_at(const Bytes &file, size_t &at) {
    Codestream stream;
    const size_t begin = at;
    const auto move_on = [&](size_t count, Bytes &to) {
        if (file.size() - at < count) refuse("the codestream is truncated");
        to.insert(to.end(), file.begin() + at, file.begin() + at + count);
        at += count;
    };
    const auto marker = [&] {
        move_on(2, stream.headers);
        if (file[at - 2] != 0xff) refuse("there is no marker at byte " + std::to_string(at - 2));
        return unsigned{file[at - 1]};
    };
    if (marker() != start_of_image) refuse("there is no SOI at byte " + std::to_string(begin));
    for (unsigned code = marker(); code != end_of_image; code = marker()) {
        move_on(2, stream.headers);
        const size_t length = file[at - 2] << 8 | file[at - 1];
        if (length < 2) refuse("a length is below 2 at byte " + std::to_string(at - 2));
        move_on(length - 2, stream.headers);
        if (code != start_of_scan) continue;
        // A scan ends before the first FF that no stuffed bit follows (A.1).
        size_t end = at;
        while (end < file.size() && !(file[end] == 0xff && end + 1 < file.size() && file[end + 1] >= 0x80)) ++end;
        stream.scans.emplace_back();
        move_on(end - at, stream.scans.back());
    }
    stream.whole.assign(file.begin() + begin, file.begin() + at);
    return stream;
}

// The headers as they are to be: SOI, SOF55, an LSE where MAXVAL isn't 2^P - 1, each component's SOS, EOI.
Bytes headers_of(const Image &image) {
    Bytes headers;
    const auto put = [&](std::initializer_list<unsigned> bytes) {
        headers.insert(headers.end(), bytes.begin(), bytes.end());
    };
    const auto put_two = [&](size_t number) {
        headers.push_back(number >> 8 & 0xff);
        headers.push_back(number & 0xff);
    };
    const unsigned components = image.planes.size();
    put({0xff, start_of_image, 0xff, 0xf7, 0, 8 + 3 * components, static_cast<unsigned>(image.bits())});
    put_two(image.height);
    put_two(image.width);
    put({components});
    for (unsigned id = 1; id <= components; ++id) put({id, 0x11, 0});
    if (!image.has_greatest_maxval()) {
        // The default thresholds (C.2.4.1.1), without loss.
        const int maxval = image.maxval;
        const auto clamp = [&](int threshold, int low) {
            return threshold > maxval || threshold < low ? low : threshold;
        };
        const int factor = maxval >= 128 ? (std::min(maxval, 4095) + 128) / 256 : 256 / (maxval + 1);
        const int t1 = clamp(maxval >= 128 ? factor + 2 : std::max(2, 3 / factor), 1);
        const int t2 = clamp(maxval >= 128 ? 4 * factor + 3 : std::max(3, 7 / factor), t1);
        const int t3 = clamp(maxval >= 128 ? 17 * factor + 4 : std::max(4, 21 / factor), t2);
        put({0xff, 0xf8, 0, 13, 1});
        for (const int parameter : {maxval, t1, t2, t3, 64}) put_two(parameter);
    }
    for (unsigned id = 1; id <= components; ++id) put({0xff, start_of_scan, 0, 8, 1, id, 0, 0, 0, 0});
    put({0xff, end_of_image});
    return headers;
}

// -------------------------------------------------------------------------------------------------------------- CharLS

// An image's components, one behind the other, as CharLS has them: a byte or two of this machine for a sample.
Bytes flattened(const Image &image) {
    Bytes bytes;
    for (const auto &plane : image.planes) {
        if (image.bits() <= 8) {
            bytes.insert(bytes.end(), plane.begin(), plane.end());
        } else {
            const size_t size = bytes.size();
            bytes.resize(size + 2 * plane.size());
            std::memcpy(&bytes[size], plane.data(), 2 * plane.size());
        }
    }
    return bytes;
}

// Why what CharLS decodes isn't the image, or nothing.
std::string decoding_fault(const Image &image, const Bytes &codestream) {
    const charls::jpegls_decoder decoder(codestream, true);
    const charls::frame_info &frame = decoder.frame_info();
    if (frame.width != image.width || frame.height != image.height || frame.bits_per_sample != image.bits() ||
        static_cast<size_t>(frame.component_count) != image.planes.size()) {
        return "CharLS reads another size, precision or count of components";
    }
    const Bytes decoded = decoder.decode<Bytes>();
    return decoded == flattened(image) ? "" : "CharLS decodes other samples";
}

Bytes coded_by_charls(const Image &image) {
    charls::jpegls_encoder encoder;
    encoder.frame_info({static_cast<uint32_t>(image.width), static_cast<uint32_t>(image.height), image.bits(),
                        static_cast<int32_t>(image.planes.size())});
    encoder.near_lossless(0);
    encoder.interleave_mode(charls::interleave_mode::none);
    // A word has 64 bits at most (A.2.1), and a stuffed bit follows after 15 others at the soonest.
    Bytes coded(image.planes.size() * image.width * image.height * 10 + 4096);
    encoder.destination(coded);
    coded.resize(encoder.encode(flattened(image)));
    return coded;
}

std::vector<Bytes> scans_by_charls(const Image &image) {
    size_t at = 0;
    return codestream_at(coded_by_charls(image), at).scans;
}

// Why CharLS's scans aren't those of the codestream, or nothing.
std::string coding_fault(const Image &image, const std::vector<Bytes> &scans) {
    const std::vector<Bytes> wanted = scans_by_charls(image);
    if (scans.size() != wanted.size()) return "CharLS makes another count of scans";
    for (size_t scan = 0; scan < scans.size(); ++scan) {
        const size_t common = std::min(scans[scan].size(), wanted[scan].size());
        const auto begin = scans[scan].begin();
        const size_t equal = std::mismatch(begin, begin + common, wanted[scan].begin()).first - begin;
        if (equal == scans[scan].size() && equal == wanted[scan].size()) continue;
        return "scan " + std::to_string(scan + 1) + " departs from CharLS's after " + std::to_string(equal) + " bytes";
    }
    return "";
}

// ----------------------------------------------------------------------------------------------------- the comparisons

class Tally {
    size_t passed_ = 0, failed_ = 0;

public:
    // `fault` says why a comparison fails. What it throws is a fault too.
    template <class Fault>
    void compare(const std::string &what, const Fault &fault) {
        std::string why;
        try {
            why = fault();
        } catch (const std::exception &error) {
            why = error.what();
        }
        if (why.empty()) {
            ++passed_;
            return;
        }
        ++failed_;
        std::printf("FAILED %s: %s\n", what.c_str(), why.c_str());
    }

    bool tell() const {
        std::printf("%zu passed, %zu failed\n", passed_, failed_);
        return failed_ == 0;
    }
};

void code_film(const char *name) {
    for (const Image &image : images_of(read_file(name))) {
        if (!image.has_greatest_maxval()) refuse("the maxval isn't 2^P - 1");
        const Bytes coded = coded_by_charls(image);
        if (std::fwrite(coded.data(), 1, coded.size(), stdout) != coded.size()) refuse("can't write");
    }
    if (std::fflush(stdout) != 0) refuse("can't write");
}

void compare_film(Tally &tally, const char *film_name, const char *file_name) {
    std::vector<Image> images;
    std::vector<Codestream> streams;
    tally.compare(file_name, [&]() -> std::string {
        images = images_of(read_file(film_name));
        const Bytes file = read_file(file_name);
        for (size_t at = 0; at < file.size();) streams.push_back(codestream_at(file, at));
        if (streams.size() == images.size()) return "";
        return std::to_string(streams.size()) + " codestreams of " + std::to_string(images.size()) + " frames";
    });
    for (size_t frame = 0; frame < std::min(images.size(), streams.size()); ++frame) {
        const Image &image = images[frame];
        const Codestream &stream = streams[frame];
        const std::string name = std::string(file_name) + ", frame " + std::to_string(frame + 1);
        tally.compare(name + ", headers", [&] { return stream.headers == headers_of(image) ? "" : "they differ"; });
        if (!image.has_greatest_maxval()) continue;
        tally.compare(name + ", decoded", [&] { return decoding_fault(image, stream.whole); });
        tally.compare(name + ", scans", [&] { return coding_fault(image, stream.scans); });
    }
}

} // namespace

int main(int argc, char **argv) {
    if (argc < 3 || argc % 2 == 0) {
        std::fprintf(stderr, "charls FILM FILE [FILM FILE]..\ncharls code FILM\n");
        return 2;
    }
    if (argc == 3 && std::string(argv[1]) == "code") {
        try {
            code_film(argv[2]);
            return 0;
        } catch (const std::exception &error) {
            std::fprintf(stderr, "charls: %s: %s\n", argv[2], error.what());
            return 1;
        }
    }
    Tally tally;
    for (int at = 1; at + 1 < argc; at += 2) compare_film(tally, argv[at], argv[at + 1]);
    return tally.tell() ? 0 : 1;
}
