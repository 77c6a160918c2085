// A small server by hand, as a limit to compare `avrogate serve` with: threads that each accept a connection of 127.0.0.1,
// read one request, answer it and close. It knows three routes (register a schema, give a schema by its id, rewrite a
// message) and one pair of schemas, whose messages it reads with the checks of docs/RULES.md and writes in the shortest
// form. What it answers has the same bytes. It has the deadlines of ours for a head, a request and an answer, and ends a
// connection as ours does, so that no client is reset; but a thread waits for one connection, so that silent ones stop it.
// It checks no schema and no compatibility. bench/service.sh builds and runs it.
// Usage: service PORT THREADS   (port 0 is any free one; it prints `listening P`)
#include <arpa/inet.h>
#include <netinet/in.h>
#include <netinet/tcp.h>
#include <sys/socket.h>
#include <sys/time.h>
#include <unistd.h>

#include <algorithm>
#include <chrono>
#include <csignal>
#include <cstdint>
#include <cstdio>
#include <ctime>
#include <cstdlib>
#include <cstring>
#include <mutex>
#include <shared_mutex>
#include <string>
#include <string_view>
#include <thread>
#include <vector>

using std::string;
using std::string_view;

constexpr size_t HEAD = 16384, TEXT = 16777216, MESSAGE = TEXT + 5, OUTPUT = 67108864;
constexpr uint64_t UNITS = 1048576;

// The message: id long, name string, tags array of string, data bytes, score int; the reader's score is a long, and after it
// comes its source, a string, whose default is "none".

struct Fault {
    const char* kind;
    size_t at;
};

struct Payload {
    const unsigned char* bytes;
    size_t size, at = 0;

    void need(size_t count) {
        if (size - at < count) throw Fault{"Truncated", size};
    }

    // a number of so many bytes at most, the last of which is at most `last`
    uint64_t number(unsigned most, unsigned last) {
        uint64_t value = 0;
        for (size_t begin = at, i = 0;; i++) {
            need(1);
            unsigned byte = bytes[at++];
            if (i + 1 == most && byte > last) throw Fault{"BadNumber", begin};
            value |= uint64_t(byte & 127) << (7 * i);
            if (byte < 128) return value;
        }
    }

    int64_t signed_number(unsigned most, unsigned last) {
        uint64_t value = number(most, last);
        return int64_t(value >> 1) ^ -int64_t(value & 1);
    }

    int64_t long_number() { return signed_number(10, 1); }
    int64_t int_number() { return signed_number(5, 15); }

    string_view bytes_();
    string_view text();
};

// how many bytes of the table of well-formed UTF-8 begin here, or 0
size_t utf8_length(const unsigned char* at, const unsigned char* end) {
    auto between = [&](int i, unsigned low, unsigned high) { return at + i < end && at[i] >= low && at[i] <= high; };
    if (*at < 0x80) return 1;
    if (*at >= 0xc2 && *at <= 0xdf) return between(1, 0x80, 0xbf) ? 2 : 0;
    if (*at >= 0xe0 && *at <= 0xef) return between(1, *at == 0xe0 ? 0xa0 : 0x80, *at == 0xed ? 0x9f : 0xbf) && between(2, 0x80, 0xbf) ? 3 : 0;
    if (*at < 0xf0 || *at > 0xf4) return 0;
    return between(1, *at == 0xf0 ? 0x90 : 0x80, *at == 0xf4 ? 0x8f : 0xbf) && between(2, 0x80, 0xbf) && between(3, 0x80, 0xbf) ? 4 : 0;
}

bool is_utf8(string_view text) {
    auto at = reinterpret_cast<const unsigned char*>(text.data()), end = at + text.size();
    while (at < end) {
        uint64_t eight;
        bool is_ascii = end - at >= 8 && (memcpy(&eight, at, 8), (eight & 0x8080808080808080) == 0);
        size_t length = is_ascii ? 8 : utf8_length(at, end);
        if (length == 0) return false;
        at += length;
    }
    return true;
}

string_view Payload::bytes_() {
    size_t begin = at;
    int64_t length = long_number();
    if (length < 0 || length > int64_t(TEXT)) throw Fault{"BadLength", begin};
    need(length);
    string_view all(reinterpret_cast<const char*>(bytes + at), length);
    at += length;
    return all;
}

string_view Payload::text() {
    string_view text = bytes_();
    size_t from = at - text.size();
    if (!is_utf8(text)) throw Fault{"BadText", from};
    return text;
}

void put_number(string& out, int64_t value) {
    uint64_t rest = (uint64_t(value) << 1) ^ uint64_t(value >> 63);
    for (; rest > 127; rest >>= 7) out += char(rest | 128);
    out += char(rest);
}

void put_text(string& out, string_view text) {
    put_number(out, text.size());
    out += text;
}

void rewrite(string_view message, string& out) {
    Payload payload{reinterpret_cast<const unsigned char*>(message.data()), message.size()};
    put_number(out, payload.long_number());
    put_text(out, payload.text());
    static thread_local string tags;
    tags.clear();
    int64_t items = 0;
    uint64_t units = 1;
    for (;;) {
        size_t begin = payload.at;
        int64_t count = payload.long_number(), size = 0;
        bool sized = count < 0;
        if (sized) size = payload.long_number();
        size_t after = payload.at;
        if (count == 0) break;
        for (uint64_t rest = sized ? -uint64_t(count) : count; rest > 0; rest--, items++) {
            if (units++ == UNITS) throw Fault{"TooMany", payload.at};
            put_text(tags, payload.text());
        }
        if (sized && uint64_t(size) != payload.at - after) throw Fault{"BadBlock", begin};
    }
    if (items > 0) put_number(out, items);
    out += tags;
    out += '\0';
    put_text(out, payload.bytes_());
    put_number(out, payload.int_number());
    put_text(out, "none");
    if (payload.at < payload.size) throw Fault{"Trailing", payload.at};
}

std::shared_mutex lock;
std::vector<string> schemas;  // the text of id 1, 2, .. as its request spells it, and as answers do

const char* const JSON = "application/vnd.schemaregistry.v1+json";

bool keeps = false;  // whether connections stay open, each with a thread of its own

// the line of the date, made once a second
const string& date_line() {
    static thread_local time_t second = 0;
    static thread_local string line;
    time_t now = time(nullptr);
    if (now != second) {
        char text[64];
        tm parts;
        strftime(text, sizeof text, "date: %a, %d %b %Y %H:%M:%S GMT\r\n", gmtime_r(&now, &parts));
        second = now, line = text;
    }
    return line;
}

void answer(string& out, const char* status, const char* type, string_view body) {
    out = "HTTP/1.1 ";
    out.append(status).append("\r\ncontent-type: ").append(type).append("\r\n");
    if (keeps) out.append(date_line());
    out.append("content-length: ").append(std::to_string(body.size())).append("\r\n");
    if (!keeps) out.append("connection: close\r\n");
    out.append("\r\n").append(body);
}

void refuse(string& out, const char* status, unsigned code, string_view message) {
    answer(out, status, JSON, "{\"error_code\":" + std::to_string(code) + ",\"message\":\"" + string(message) + "\"}");
}

void transcode(string_view message, string& out) {
    if (message.size() < 5) return refuse(out, "422 Unprocessable Entity", 42253, "bad envelope: ShortEnvelope");
    if (message[0] != 0) return refuse(out, "422 Unprocessable Entity", 42253, "bad envelope: BadMagic");
    if (message.substr(1, 4) != string_view("\0\0\0\1", 4)) return refuse(out, "404 Not Found", 40403, "schema not found");
    static thread_local string body;
    body.assign("\0\0\0\0\2", 5);
    try {
        rewrite(message.substr(5), body);
    } catch (Fault fault) {
        return refuse(out, "422 Unprocessable Entity", 42250, "malformed " + string(fault.kind) + " at " + std::to_string(fault.at));
    }
    if (body.size() - 5 > OUTPUT) return refuse(out, "422 Unprocessable Entity", 42252, "output too large");
    answer(out, "200 OK", "application/octet-stream", body);
}

void register_schema(string_view body, string& out) {
    size_t begin = body.find("\"schema\":");
    if (begin != body.npos) begin = body.find('"', begin + 9);
    if (begin == body.npos) return refuse(out, "422 Unprocessable Entity", 42201, "invalid schema: Body");
    size_t end = ++begin;
    while (end < body.size() && body[end] != '"') end += body[end] == '\\' ? 2 : 1;
    if (end >= body.size()) return refuse(out, "400 Bad Request", 400, "bad request");
    string text(body.substr(begin, end - begin));
    std::unique_lock<std::shared_mutex> guard(lock);
    auto known = std::find(schemas.begin(), schemas.end(), text);
    size_t id = known - schemas.begin() + 1;
    if (known == schemas.end()) schemas.push_back(text);
    answer(out, "200 OK", JSON, "{\"id\":" + std::to_string(id) + "}");
}

bool starts(string_view text, string_view with) { return text.substr(0, with.size()) == with; }
bool ends(string_view text, string_view with) { return text.size() >= with.size() && text.substr(text.size() - with.size()) == with; }

// the number that a text is, or 0
unsigned long whole(string_view text) {
    unsigned long value = 0;
    for (char digit : text) {
        if (digit < '0' || digit > '9' || value > UINT32_MAX) return 0;
        value = value * 10 + (digit - '0');
    }
    return value;
}

void route(string_view method, string_view path, string_view body, string& out) {
    path = path.substr(0, path.find('?'));
    if (method == "GET" && starts(path, "/schemas/ids/")) {
        unsigned long id = whole(path.substr(13));
        std::shared_lock<std::shared_mutex> guard(lock);
        if (id == 0 || id > schemas.size()) return refuse(out, "404 Not Found", 40403, "schema not found");
        static thread_local string text;
        text.assign("{\"schema\":\"").append(schemas[id - 1]).append("\"}");
        return answer(out, "200 OK", JSON, text);
    }
    if (method == "POST" && starts(path, "/transcode/")) {
        if (whole(path.substr(11)) != 2) return refuse(out, "404 Not Found", 40403, "schema not found");
        return transcode(body, out);
    }
    if (method == "POST" && starts(path, "/subjects/") && ends(path, "/versions")) return register_schema(body, out);
    refuse(out, "404 Not Found", 404, "no such route");
}

// the length of the body, or -1 where the head tells none that counts
long body_length(string_view head) {
    long length = 0;
    for (size_t at = head.find("\r\n"); at != head.npos; at = head.find("\r\n", at)) {
        at += 2;
        string_view line = head.substr(at, head.find("\r\n", at) - at);
        if (line.size() < 15 || strncasecmp(line.data(), "content-length:", 15) != 0) continue;
        line.remove_prefix(15);
        while (!line.empty() && (line.front() == ' ' || line.front() == '\t')) line.remove_prefix(1);
        while (!line.empty() && (line.back() == ' ' || line.back() == '\t')) line.remove_suffix(1);
        if (line.empty() || (whole(line) == 0 && line != "0")) return -1;
        length = whole(line);
    }
    return length;
}

using Clock = std::chrono::steady_clock;
constexpr std::chrono::seconds HEAD_TIME(5), REQUEST_TIME(10), ANSWER_TIME(10), REST_TIME(2);
constexpr size_t SENT_AT_ONCE = 16384;

// more bytes of the request; false where none came, or time is up
bool receive(int connection, string& request, size_t most, Clock::time_point deadline) {
    if (Clock::now() > deadline) return false;
    size_t had = request.size();
    request.resize(had + most);
    ssize_t got = recv(connection, &request[had], most, 0);
    request.resize(had + std::max<ssize_t>(got, 0));
    return got > 0;
}

// one request, and its answer; false where no byte came
bool serve(int connection, string& request, string& out) {
    request.clear();
    auto begun = Clock::now();
    size_t head;
    while ((head = request.find("\r\n\r\n")) == request.npos && request.size() <= HEAD && receive(connection, request, 4096, begun + HEAD_TIME)) {}
    if (request.empty()) return false;
    size_t one = request.find(' '), two = request.find(' ', one + 1);
    long length = head == request.npos ? -1 : body_length(string_view(request).substr(0, head + 2));
    if (length < 0 || two == request.npos || two > head) return refuse(out, "400 Bad Request", 400, "bad request"), true;
    if (length > long(MESSAGE)) return refuse(out, "413 Payload Too Large", 41301, "too large"), true;
    size_t whole = head + 4 + length;
    while (request.size() < whole && receive(connection, request, std::min<size_t>(whole - request.size(), 262144), begun + REQUEST_TIME)) {}
    if (request.size() < whole) return refuse(out, "400 Bad Request", 400, "bad request"), true;
    string_view view(request);
    route(view.substr(0, one), view.substr(one + 1, two - one - 1), view.substr(head + 4, length), out);
    return true;
}

bool send_all(int connection, const string& out) {
    auto deadline = Clock::now() + ANSWER_TIME;
    for (size_t sent = 0; sent < out.size();) {
        ssize_t more = send(connection, out.data() + sent, out.size() - sent, MSG_NOSIGNAL);
        if (more <= 0 || Clock::now() > deadline) return false;
        sent += more;
    }
    return true;
}

// takes what still comes, so that the client is not reset
void finish(int connection, size_t length) {
    static thread_local char rest[65536];
    if (length <= SENT_AT_ONCE && recv(connection, rest, sizeof rest, MSG_DONTWAIT) <= 0) return;
    if (shutdown(connection, SHUT_WR) != 0) return;
    auto deadline = Clock::now() + REST_TIME;
    while (Clock::now() < deadline && recv(connection, rest, sizeof rest, 0) > 0) {}
}

void limit_times(int connection) {
    timeval limit{5, 0};
    setsockopt(connection, SOL_SOCKET, SO_RCVTIMEO, &limit, sizeof limit);
    setsockopt(connection, SOL_SOCKET, SO_SNDTIMEO, &limit, sizeof limit);
}

// all requests of one connection, which do not come before the answer to the one before
void stay(int connection) {
    string request, out;
    int one = 1;
    setsockopt(connection, IPPROTO_TCP, TCP_NODELAY, &one, sizeof one);
    limit_times(connection);
    while (serve(connection, request, out) && send_all(connection, out)) {}
    close(connection);
}

void client(int listener) {
    string request, out;
    for (;;) {
        int connection = accept(listener, nullptr, nullptr);
        if (connection < 0) continue;
        if (keeps) {
            std::thread(stay, connection).detach();
            continue;
        }
        limit_times(connection);
        if (serve(connection, request, out) && send_all(connection, out)) finish(connection, out.size());
        close(connection);
    }
}

int main(int argc, char** argv) {
    if (argc < 3) return fprintf(stderr, "usage: service PORT THREADS [keep]\n"), 2;
    keeps = argc > 3;
    int listener = socket(AF_INET, SOCK_STREAM, 0), one = 1;
    setsockopt(listener, SOL_SOCKET, SO_REUSEADDR, &one, sizeof one);
    sockaddr_in address{};
    address.sin_family = AF_INET;
    address.sin_port = htons(atoi(argv[1]));
    address.sin_addr.s_addr = htonl(INADDR_LOOPBACK);
    socklen_t size = sizeof address;
    auto any = reinterpret_cast<sockaddr*>(&address);
    if (bind(listener, any, size) != 0 || listen(listener, 128) != 0 || getsockname(listener, any, &size) != 0) return perror("service"), 3;
    printf("listening %d\n", ntohs(address.sin_port));
    fflush(stdout);
    std::vector<std::thread> threads;
    for (int i = 0; i < atoi(argv[2]); i++) threads.emplace_back(client, listener);
    for (auto& thread : threads) thread.join();
}
