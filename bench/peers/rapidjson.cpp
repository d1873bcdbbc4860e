// The line program's answers to right feeds, with RapidJSON's tree, std::map and zlib's CRC.
#include <rapidjson/document.h>
#include <zlib.h>

#include <cstdint>
#include <cstdio>
#include <iostream>
#include <map>
#include <string>

using rapidjson::Value;
using Bids = std::map<uint64_t, std::string, std::greater<uint64_t>>;
using Asks = std::map<uint64_t, std::string>;

struct Book {
    bool k;
    size_t depth;
    std::string channel, product;
    Bids bids;
    Asks asks;
    bool live = false;
    std::string text;

    // The price in units of 10^-9.
    static uint64_t key(const char *text) {
        uint64_t digits = 0;
        int decimals = -1;
        for (; *text; ++text) {
            if (*text == '.') { decimals = 0; continue; }
            digits = digits * 10 + (*text - '0');
            if (decimals >= 0) ++decimals;
        }
        for (int i = decimals < 0 ? 0 : decimals; i < 9; ++i) digits *= 10;
        return digits;
    }

    static bool zero(const char *text) {
        while (*text == '0' || *text == '.') ++text;
        return !*text;
    }

    static void strip(std::string &out, const char *text) {
        while (*text == '0' || *text == '.') ++text;
        for (; *text; ++text)
            if (*text != '.') out += *text;
    }

    template <class Side> void apply(Side &side, const Value &entries) {
        for (const Value &entry : entries.GetArray()) {
            const char *price = entry[0].GetString(), *size = entry[1].GetString();
            if (zero(size)) { side.erase(key(price)); continue; }
            std::string &piece = side[key(price)];
            piece.clear();
            if (k) strip(piece, price), strip(piece, size);
            else piece.append(price).append(":").append(size);
        }
    }

    template <class Side> static void cut(Side &side, size_t depth) {
        while (side.size() > depth) side.erase(std::prev(side.end()));
    }

    uLong checksum() {
        text.clear();
        auto bid = bids.begin();
        auto ask = asks.begin();
        if (k) {
            for (int i = 0; i < 10 && ask != asks.end(); ++i) text += ask++->second;
            for (int i = 0; i < 10 && bid != bids.end(); ++i) text += bid++->second;
        } else {
            while (bid != bids.end() || ask != asks.end()) {
                if (bid != bids.end()) text += bid++->second, text += ':';
                if (ask != asks.end()) text += ask++->second, text += ':';
            }
            if (!text.empty()) text.pop_back();
        }
        return crc32(0, reinterpret_cast<const Bytef *>(text.data()), text.size());
    }

    int take_k(const Value &message) {
        if (!message.IsArray() || message.Size() < 4) return 5;
        auto last = message.Size() - 1;
        if (message[last - 1] != channel.c_str() || message[last] != product.c_str()) return 5;
        bool right = true;
        for (unsigned i = 1; i + 2 <= last; ++i)
            if (message[i].HasMember("as")) bids.clear(), asks.clear();
        for (unsigned i = 1; i + 2 <= last; ++i)
            for (const auto &member : message[i].GetObject()) {
                std::string name = member.name.GetString();
                if (name == "a" || name == "as") apply(asks, member.value);
                else if (name == "b" || name == "bs") apply(bids, member.value);
            }
        cut(bids, depth), cut(asks, depth);
        for (unsigned i = 1; i + 2 <= last; ++i) {
            auto member = message[i].FindMember("c");
            if (member != message[i].MemberEnd()) right = std::stoul(member->value.GetString()) == checksum();
        }
        live = right;
        return right ? 0 : 13;
    }

    int take_m(const Value &message) {
        if (message["channel"] != channel.c_str() || message["product"] != product.c_str()) return 5;
        if (message["type"] == "snapshot") bids.clear(), asks.clear();
        apply(bids, message["data"]["bids"]);
        apply(asks, message["data"]["asks"]);
        live = message["checksum"].GetUint() == checksum();
        return live ? 0 : 13;
    }
};

static int run() {
    std::ios::sync_with_stdio(false);
    std::string dialect, depth, name, line;
    std::cin >> dialect >> depth >> name;
    std::getline(std::cin, line);
    bool k = dialect == "K";
    Book book{k, std::stoul(depth), k ? "book-" + depth : "book", name, {}, {}, false, {}};
    static char pool[1 << 17];
    rapidjson::MemoryPoolAllocator<> allocator(pool, sizeof pool);
    while (std::getline(std::cin, line)) {
        allocator.Clear();
        rapidjson::Document message(&allocator);
        message.ParseInsitu(line.data());
        int answer = message.HasParseError() ? 3 : k ? book.take_k(message) : book.take_m(message);
        std::cout << answer;
        if (book.live) std::cout << ' ' << book.bids.size() << ' ' << book.asks.size() << '\n';
        else std::cout << " - -\n";
    }
    return 0;
}

int main() { return run(); }
