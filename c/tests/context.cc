// Tests of addr2line.hpp: context AREA [SPLIT ADDRESS]. AREA is crates/addr2line_bin/data/area.elf, and SPLIT a program
// with split files beside it, of which one has the address. Prints the first thing that doesn't hold, with status 1.
#include <addr2line.hpp>

// After it the C header may be included as well.
#include <addr2line.h>

#include <algorithm>
#include <cerrno>
#include <cstdio>
#include <cstdlib>
#include <fstream>
#include <iterator>
#include <new>
#include <string>
#include <sys/wait.h>
#include <thread>
#include <type_traits>
#include <unistd.h>
#include <vector>

using addr2line::Context;
using addr2line::Found;
using addr2line::Frames;
using addr2line::Status;

#define CHECK(holds)                                                              \
    do {                                                                          \
        if (!(holds)) {                                                           \
            std::printf("%s:%d: %s\n", __FILE__, __LINE__, #holds);               \
            std::exit(1);                                                         \
        }                                                                         \
    } while (0)

static_assert(!std::is_copy_constructible_v<Context> && !std::is_copy_assignable_v<Context>);
static_assert(std::is_nothrow_move_constructible_v<Context> && std::is_nothrow_move_assignable_v<Context>);
static_assert(std::is_nothrow_move_constructible_v<Frames> && !std::is_copy_constructible_v<Frames>);
static_assert(std::is_error_code_enum_v<Status>);

// While it is set no buffer of an answer grows.
static bool is_refused = false;

void *operator new[](std::size_t size, const std::nothrow_t &) noexcept
{
    if (is_refused) {
        return nullptr;
    }
    try {
        return ::operator new[](size);
    } catch (const std::bad_alloc &) {
        return nullptr;
    }
}

namespace {

// An address of area.elf with four frames, as docs/C_LIBRARY.md shows them, and one without any.
constexpr std::uint64_t inlined = 0x40014b;
constexpr std::uint64_t unknown = 0x10;

std::string text_of(const Frames &frames)
{
    std::string text;
    for (const addr2line::Frame &frame : frames) {
        text += std::string(frame.function.value_or("??")) + " " + std::string(frame.location.file.value_or("??")) + ":"
                + std::to_string(frame.location.line.value_or(0)) + "\n";
    }
    return text;
}

const std::string four_frames = "area /src/area.c:11\nroom /src/area.c:18\nmeasure /src/area.c:24\n_start /src/area.c:29\n";

std::vector<char> bytes_of(const std::string &path)
{
    std::ifstream file(path, std::ios::binary);
    return std::vector<char>(std::istreambuf_iterator<char>(file), std::istreambuf_iterator<char>());
}

template <class Call> std::error_code thrown_by(Call call)
{
    try {
        call();
    } catch (const std::system_error &error) {
        return error.code();
    }
    return std::error_code();
}

void answers(const std::string &path)
{
    Context context(path);
    CHECK(context.is_open());
    const Frames frames = context.frames(inlined);
    CHECK(frames.size() == 4 && !frames.empty());
    CHECK(text_of(frames) == four_frames);
    CHECK(*frames[0].function == "area" && frames[3].location.line == 29u);
    // A zero byte follows each text.
    CHECK(std::string(frames[1].function->data()) == "room");
    CHECK(std::count_if(frames.begin(), frames.end(), [](const auto &frame) { return frame.entry.has_value(); }) <= 4);
    CHECK(context.frames(unknown).empty());

    const Found<addr2line::Location> location = context.location(inlined);
    CHECK(location && location.has_value() && location->file == "/src/area.c" && (*location).line == 11u);
    CHECK(!context.location(unknown));
    const Found<addr2line::Symbol> symbol = context.symbol(inlined);
    CHECK(symbol && symbol->name == "_start" && symbol->address <= inlined);
    CHECK(!context.symbol(unknown));
    const auto section = context.section(".text");
    CHECK(section && section->begin <= inlined && inlined < section->end);
    CHECK(!context.section(".nothing"));
    // No bytes are a name too, that of the section with number 0.
    CHECK(!context.section(std::string_view()) || context.section(std::string_view())->begin == 0);
    CHECK(!context.load());
    context.parse_all();
    CHECK(text_of(context.frames(inlined)) == four_frames);
    CHECK(addr2line_preload(context.handle(), inlined) == ADDR2LINE_OK);
}

void texts_stay(const std::string &path)
{
    Frames frames;
    Found<addr2line::Location> location;
    Found<addr2line::Symbol> symbol;
    {
        Context context(path);
        frames = context.frames(inlined);
        location = context.location(inlined);
        symbol = context.symbol(inlined);
        for (int i = 0; i < 100; i++) {
            CHECK(context.frames(inlined).size() == 4);
        }
    }
    CHECK(text_of(frames) == four_frames);
    CHECK(location->file == "/src/area.c" && symbol->name == "_start");
    Frames moved = std::move(frames);
    CHECK(text_of(moved) == four_frames && frames.empty()); // NOLINT: what is moved from is empty
    Frames &same = moved;
    moved = std::move(same);
    CHECK(text_of(moved) == four_frames);
    Found<addr2line::Location> other = std::move(location);
    CHECK(other->line == 11u && !location); // NOLINT
    // A loop holds the answer that it goes through, also where nothing holds the Context.
    std::size_t length = 0;
    for (const auto &frame : Context(path).frames(inlined)) {
        length += frame.function->size();
    }
    CHECK(length == std::string("arearoommeasure_start").size());

    Context context(path);
    std::error_code error = Status::closed;
    context.find_frames(inlined, moved, error);
    CHECK(!error && text_of(moved) == four_frames);
    context.find_frames(unknown, moved, error);
    CHECK(!error && moved.empty());
}

void moves(const std::string &path)
{
    Context first(path);
    Context second(std::move(first));
    CHECK(!first.is_open() && second.is_open()); // NOLINT
    CHECK(text_of(second.frames(inlined)) == four_frames);
    std::error_code error;
    CHECK(first.frames(inlined, error).empty() && error == Status::closed);
    first = std::move(second);
    CHECK(first.is_open() && text_of(first.frames(inlined)) == four_frames);
    Context &same = first;
    first = std::move(same);
    CHECK(first.is_open());
    Context third(path);
    third = std::move(first);
    CHECK(text_of(third.frames(inlined)) == four_frames);
    third.close();
    third.close();
    CHECK(!third.is_open());
    CHECK(thrown_by([&] { third.frames(inlined); }) == Status::closed);
    std::vector<Context> many;
    for (int i = 0; i < 5; i++) {
        many.emplace_back(path);
    }
    CHECK(text_of(many.front().frames(inlined)) == four_frames);
}

void refusals(const std::string &path)
{
    std::error_code error;
    Context none("/nowhere", error);
    CHECK(error == Status::cannot_read && !none.is_open());
    CHECK(error.category() == addr2line::category() && std::string(error.category().name()) == "addr2line");
    char text[80];
    std::size_t needed = 0;
    CHECK(addr2line_status_text(ADDR2LINE_CANNOT_READ, text, sizeof text, &needed) == ADDR2LINE_OK);
    CHECK(error.message() == text);
    try {
        Context refused("/nowhere");
        CHECK(false);
    } catch (const std::system_error &refusal) {
        CHECK(refusal.code() == Status::cannot_read);
        CHECK(refusal.what() == std::string("/nowhere: ") + text);
    }
    CHECK(thrown_by([&] { Context(path + std::string(1, '\0')); }) == Status::cannot_read);
    CHECK(thrown_by([&] { Context(path, "/nowhere"); }) == Status::cannot_read);
    CHECK(thrown_by([&] { Context("/dev/null"); }) == Status::cannot_read);
    CHECK(thrown_by([] { Context::over("no ELF file", 11); }) == Status::not_elf);
    CHECK(thrown_by([] { Context::over(nullptr, 0); }) == Status::not_elf);
    Context::over("\177ELF", 4, error);
    CHECK(error == Status::bad_elf);
    CHECK(std::error_code(Status::out_of_memory) == std::errc::not_enough_memory);
    CHECK(std::error_code(Status::bad_elf) != std::errc::not_enough_memory);
    CHECK(std::error_code(60, addr2line::category()).message() == "unknown status 60");

    // A call that isn't refused clears what was told before.
    Context context(path);
    error = Status::closed;
    CHECK(context.frames(inlined, error).size() == 4 && !error);
    error = Status::closed;
    CHECK(context.location(inlined, error) && !error);
    error = Status::closed;
    CHECK(!context.symbol(unknown, error) && !error);

    Context closed;
    CHECK(thrown_by([&] { closed.frames(inlined); }) == Status::closed);
    CHECK(thrown_by([&] { closed.location(inlined); }) == Status::closed);
    CHECK(thrown_by([&] { closed.symbol(inlined); }) == Status::closed);
    CHECK(thrown_by([&] { closed.section(".text"); }) == Status::closed);
    CHECK(thrown_by([&] { closed.parse_all(); }) == Status::closed);
    CHECK(thrown_by([&] { closed.load(); }) == Status::closed);
    CHECK(thrown_by([&] { closed.answer_load(0, nullptr, 0); }) == Status::closed);
    CHECK(thrown_by([&] { closed.answer_loads(); }) == Status::closed);
}

// How a file is opened: each way gives the same frames, and errno is told.
void ways(const std::string &path)
{
    using addr2line::Open;
    for (const Open how : {Open::plain, Open::map, Open::decompress, Open::map | Open::decompress}) {
        Context context(path, how);
        CHECK(text_of(context.frames(inlined)) == four_frames && context.os_error() == 0);
    }
    const std::vector<char> held = bytes_of(path);
    std::error_code error;
    CHECK(text_of(Context::over(held.data(), held.size(), error, Open::decompress).frames(inlined)) == four_frames);
    CHECK(!error);
    CHECK(!Context::over(held.data(), held.size(), error, Open::map).is_open() && error == Status::bad_flags);
    Context none("/nowhere", error, Open::plain);
    CHECK(error == Status::cannot_read && none.os_error() == ENOENT);
}

void refused_memory(const std::string &path)
{
    Context context(path);
    std::error_code error;
    is_refused = true;
    const bool none = context.frames(inlined, error).empty();
    const std::error_code of_frames = error;
    const bool nowhere = !context.location(inlined, error) && error == Status::out_of_memory;
    is_refused = false;
    Frames used = context.frames(inlined);
    is_refused = true;
    context.find_frames(inlined, used, error);
    const std::error_code of_used = error;
    is_refused = false;
    CHECK(!of_used && text_of(used) == four_frames);
    CHECK(none && of_frames == Status::out_of_memory && nowhere);
    CHECK(text_of(context.frames(inlined)) == four_frames && context.location(inlined));
}

void bytes(const std::string &path)
{
    const std::vector<char> held = bytes_of(path);
    Context context = Context::over(held.data(), held.size());
    Context beside = Context::over(held.data(), held.size());
    CHECK(text_of(context.frames(inlined)) == four_frames);
    context.close();
    CHECK(text_of(beside.frames(inlined)) == four_frames);
}

void threads(const std::string &path)
{
    const std::vector<char> held = bytes_of(path);
    std::vector<std::string> texts(4);
    std::vector<std::thread> running;
    for (std::string &text : texts) {
        running.emplace_back([&held, &text] {
            Context context = Context::over(held.data(), held.size());
            for (int i = 0; i < 100; i++) {
                text = text_of(context.frames(inlined));
            }
        });
    }
    for (std::thread &thread : running) {
        thread.join();
    }
    CHECK(std::all_of(texts.begin(), texts.end(), [](const std::string &text) { return text == four_frames; }));
}

void forks(const std::string &path)
{
    Context context(path);
    const Frames before = context.frames(inlined);
    std::fflush(stdout);
    const pid_t child = fork();
    CHECK(child >= 0);
    if (child == 0) {
        const bool same = text_of(before) == four_frames && text_of(context.frames(inlined)) == four_frames;
        context.close();
        std::exit(same ? 0 : 1);
    }
    int status = 0;
    CHECK(waitpid(child, &status, 0) == child && WIFEXITED(status) && WEXITSTATUS(status) == 0);
    CHECK(text_of(context.frames(inlined)) == four_frames && text_of(before) == four_frames);
}

// A Context of a path reads split files by itself; one over bytes says that it waits, and is answered.
void split(const std::string &path, std::uint64_t address)
{
    Context by_path(path);
    const std::string wanted = text_of(by_path.frames(address));
    CHECK(!wanted.empty());

    const std::vector<char> held = bytes_of(path);
    std::vector<std::vector<char>> answered;
    Context context = Context::over(held.data(), held.size());
    std::error_code error;
    CHECK(context.frames(address, error).empty() && error == Status::waits);
    while (Found<addr2line::Load> load = context.load()) {
        std::string name(load->path.value());
        if (name.empty() || name[0] != '/') {
            name = std::string(load->directory.value_or("")) + "/" + name;
        }
        answered.push_back(bytes_of(name));
        CHECK(!answered.back().empty());
        context.answer_load(load->token, answered.back().data(), answered.back().size());
    }
    CHECK(!answered.empty() && text_of(context.frames(address)) == wanted);

    Context by_files = Context::over(held.data(), held.size());
    CHECK(thrown_by([&] { by_files.frames(address); }) == Status::waits);
    by_files.answer_loads();
    CHECK(text_of(by_files.frames(address)) == wanted);
    CHECK(thrown_by([&] { by_files.answer_load(~std::uint64_t(0), nullptr, 0); }) == Status::unknown_token);
}

} // namespace

int main(int argc, char **argv)
{
    if (argc != 2 && argc != 4) {
        return 2;
    }
    const std::string path = argv[1];
    answers(path);
    texts_stay(path);
    moves(path);
    refusals(path);
    ways(path);
    refused_memory(path);
    bytes(path);
    threads(path);
    forks(path);
    if (argc == 4) {
        split(argv[2], std::stoull(argv[3], nullptr, 16));
    }
    return 0;
}
