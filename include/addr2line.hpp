/*
 * addr2line.h for C++17: a Context is an open file, and asks; its answers own their texts.
 *
 *   - A Context closes itself. It can be moved and not copied, is used by one call at a time, and stays on the
 *     thread that opened it. Threads may each have one of their own, also over the same bytes.
 *   - An answer (Frames, Found) owns the texts that its views show: they stay as long as the answer, or what it
 *     was moved to, also where its Context is closed by then. A zero byte follows each, which no view counts.
 *   - A call with a std::error_code & writes there whether it was refused, and throws nothing. The same call
 *     without one throws std::system_error. Nothing found is no refusal: an answer is empty then.
 *   - Buffers grow as is needed; what can't grow is refused Status::out_of_memory, as any other memory.
 *
 * Compiled into the program, over the C calls, and not proved. Link the library as C does.
 */
#ifndef ADDR2LINE_HPP
#define ADDR2LINE_HPP

#if defined(ADDR2LINE_H) && !defined(ADDR2LINE_IS_NAMESPACE)
#error "include addr2line.hpp before addr2line.h, or define ADDR2LINE_IS_NAMESPACE: one name can't be a type and a namespace"
#endif
#ifndef ADDR2LINE_IS_NAMESPACE
#define ADDR2LINE_IS_NAMESPACE 1
#endif

#include "addr2line_file.h"

#include <cstddef>
#include <cstdint>
#include <memory>
#include <new>
#include <optional>
#include <string>
#include <string_view>
#include <system_error>
#include <type_traits>
#include <utility>

namespace addr2line {

/* What addr2line.h says of each. */
enum class Status : addr2line_status {
    ok = ADDR2LINE_OK,
    too_small = ADDR2LINE_TOO_SMALL,
    waits = ADDR2LINE_WAITS,
    nothing = ADDR2LINE_NOTHING,
    closed = ADDR2LINE_CLOSED,
    other_unit = ADDR2LINE_OTHER_UNIT,
    bad_flags = ADDR2LINE_BAD_FLAGS,
    no_place = ADDR2LINE_NO_PLACE,
    out_of_memory = ADDR2LINE_OUT_OF_MEMORY,
    cannot_read = ADDR2LINE_CANNOT_READ,
    not_elf = ADDR2LINE_NOT_ELF,
    bad_elf = ADDR2LINE_BAD_ELF,
    compressed_section = ADDR2LINE_COMPRESSED_SECTION,
    relocations_needed = ADDR2LINE_RELOCATIONS_NEEDED,
    path_not_utf8 = ADDR2LINE_PATH_NOT_UTF8,
    unexpected_eof = ADDR2LINE_UNEXPECTED_EOF,
    bad_leb128 = ADDR2LINE_BAD_LEB128,
    unknown_reserved_length = ADDR2LINE_UNKNOWN_RESERVED_LENGTH,
    unknown_version = ADDR2LINE_UNKNOWN_VERSION,
    unknown_unit_type = ADDR2LINE_UNKNOWN_UNIT_TYPE,
    unsupported_address_size = ADDR2LINE_UNSUPPORTED_ADDRESS_SIZE,
    unsupported_segment_size = ADDR2LINE_UNSUPPORTED_SEGMENT_SIZE,
    bad_abbreviation = ADDR2LINE_BAD_ABBREVIATION,
    unknown_abbreviation = ADDR2LINE_UNKNOWN_ABBREVIATION,
    unknown_form = ADDR2LINE_UNKNOWN_FORM,
    missing_unit_die = ADDR2LINE_MISSING_UNIT_DIE,
    offset_out_of_bounds = ADDR2LINE_OFFSET_OUT_OF_BOUNDS,
    expected_string = ADDR2LINE_EXPECTED_STRING,
    no_supplementary = ADDR2LINE_NO_SUPPLEMENTARY,
    no_entry_at_given_offset = ADDR2LINE_NO_ENTRY_AT_GIVEN_OFFSET,
    unknown_range_list_entry = ADDR2LINE_UNKNOWN_RANGE_LIST_ENTRY,
    bad_line_header = ADDR2LINE_BAD_LINE_HEADER,
    address_overflow = ADDR2LINE_ADDRESS_OVERFLOW,
    unknown_token = ADDR2LINE_UNKNOWN_TOKEN
};

namespace detail {

class Category final : public std::error_category {
public:
    const char *name() const noexcept override { return "addr2line"; }

    std::string message(int value) const override
    {
        std::string text(80, '\0');
        for (;;) {
            std::size_t needed = 0;
            const addr2line_status status =
                addr2line_status_text(static_cast<addr2line_status>(value), text.data(), text.size(), &needed);
            if (status == ADDR2LINE_OK) {
                return text.c_str();
            }
            if (status != ADDR2LINE_TOO_SMALL) {
                return "unknown status " + std::to_string(value);
            }
            text.assign(needed, '\0');
        }
    }

    std::error_condition default_error_condition(int value) const noexcept override
    {
        if (value == static_cast<int>(ADDR2LINE_OUT_OF_MEMORY)) {
            return std::errc::not_enough_memory;
        }
        return std::error_condition(value, *this);
    }
};

} // namespace detail

/* The category of a Status; its messages are those of addr2line_status_text. */
inline const std::error_category &category() noexcept
{
    static const detail::Category it;
    return it;
}

inline std::error_code make_error_code(Status status) noexcept
{
    return std::error_code(static_cast<int>(status), category());
}

} // namespace addr2line

template <> struct std::is_error_code_enum<addr2line::Status> : std::true_type {};

namespace addr2line {

/* Where in a source file; lines and columns count from 1, and column 0 is the left edge. */
struct Location {
    std::optional<std::string_view> file;
    std::optional<std::uint32_t> line;
    std::optional<std::uint32_t> column;
};

/* A function at an address with its location there, or a location without a function. */
struct Frame {
    std::optional<std::string_view> function;
    Location location; /* that of the address, or that of the call of the frame before */
    std::optional<std::uint64_t> entry; /* of the function's entry, from the start of its unit */
};

struct Symbol {
    std::uint64_t address = 0;
    std::string_view name;
};

/* A split file that is waited for. */
struct Load {
    std::uint64_t token = 0;
    std::uint64_t dwo_id = 0;
    std::optional<std::string_view> directory; /* a path that doesn't begin with '/' stands in it */
    std::optional<std::string_view> path;
};

/* The addresses from begin up to end. */
struct Range {
    std::uint64_t begin = 0;
    std::uint64_t end = 0;
};

/* How a file is opened; what each means says addr2line.h, of map addr2line_file.h. */
enum class Open : std::uint32_t {
    plain = 0,
    decompress = ADDR2LINE_DECOMPRESS,
    map = ADDR2LINE_FILE_MAP
};

constexpr Open operator|(Open one, Open other) noexcept
{
    return static_cast<Open>(static_cast<std::uint32_t>(one) | static_cast<std::uint32_t>(other));
}

/* Whether names stand as in the source. */
enum class Demangle : std::uint32_t {
    no = 0,
    legacy_rust = ADDR2LINE_DEMANGLE, /* of Rust before its version 0 of mangling */
    rust = ADDR2LINE_DEMANGLE_RUST    /* of that version too */
};

namespace detail {

/* Items that grow without a throw. What was in them is lost then: each is written anew by a call. */
template <class T> class Buffer {
public:
    Buffer() noexcept = default;
    Buffer(Buffer &&other) noexcept : items_(std::move(other.items_)), size_(std::exchange(other.size_, 0)) {}
    Buffer &operator=(Buffer &&other) noexcept
    {
        items_ = std::move(other.items_);
        size_ = std::exchange(other.size_, 0);
        return *this;
    }

    bool grow(std::size_t size) noexcept
    {
        if (size > size_) {
            std::unique_ptr<T[]> items(new (std::nothrow) T[size]);
            if (items == nullptr) {
                return false;
            }
            items_ = std::move(items);
            size_ = size;
        }
        return true;
    }

    T *data() const noexcept { return items_.get(); }
    std::size_t size() const noexcept { return size_; }

private:
    std::unique_ptr<T[]> items_;
    std::size_t size_ = 0;
};

inline std::error_code error_of(addr2line_status status) noexcept
{
    return status == ADDR2LINE_OK ? std::error_code() : make_error_code(static_cast<Status>(status));
}

inline void throw_if(const std::error_code &error, const char *what)
{
    if (error) {
        throw std::system_error(error, what);
    }
}

/* What a call gives that takes an error_code, where it leaves none there. */
template <class Call> auto or_throw(Call call)
{
    std::error_code error;
    if constexpr (std::is_void_v<decltype(call(error))>) {
        call(error);
        throw_if(error, "addr2line");
    } else {
        auto answer = call(error);
        throw_if(error, "addr2line");
        return answer;
    }
}

inline std::optional<std::string_view> view(const char *text, const addr2line_text &part) noexcept
{
    if (part.is_there == 0) {
        return std::nullopt;
    }
    return std::string_view(text + part.offset, part.length);
}

inline std::optional<std::uint32_t> number(const addr2line_number &part) noexcept
{
    return part.is_there == 0 ? std::nullopt : std::optional<std::uint32_t>(part.value);
}

inline Location seen(const char *text, const addr2line_location &part) noexcept
{
    return Location{view(text, part.file), number(part.line), number(part.column)};
}

inline Frame seen(const char *text, const addr2line_frame &part) noexcept
{
    return Frame{view(text, part.function), seen(text, part.location),
                 part.entry.is_there == 0 ? std::nullopt : std::optional<std::uint64_t>(part.entry.value)};
}

inline Symbol seen(const char *text, const addr2line_symbol &part) noexcept
{
    return Symbol{part.address, view(text, part.name).value_or(std::string_view())};
}

inline Load seen(const char *text, const addr2line_load &part) noexcept
{
    return Load{part.token, part.dwo_id, view(text, part.directory), view(text, part.path)};
}

} // namespace detail

/*
 * The frames at an address: the innermost inlined function first, the one that is no inlined call last. It
 * owns their texts. A frame of an answer that isn't stored can't be taken out of it, since nothing would hold
 * its texts; a `for` over such an answer holds it.
 */
class Frames {
public:
    using value_type = Frame;
    using size_type = std::size_t;
    using const_iterator = const Frame *;
    using iterator = const_iterator;

    Frames() noexcept = default;
    Frames(Frames &&other) noexcept
        : text_(std::move(other.text_)), frames_(std::move(other.frames_)), count_(std::exchange(other.count_, 0))
    {
    }
    Frames &operator=(Frames &&other) noexcept
    {
        if (this != &other) {
            text_ = std::move(other.text_);
            frames_ = std::move(other.frames_);
            count_ = std::exchange(other.count_, 0);
        }
        return *this;
    }

    const Frame *begin() const & noexcept { return frames_.data(); }
    const Frame *end() const & noexcept { return frames_.data() + count_; }
    const Frame &operator[](std::size_t at) const & noexcept { return frames_.data()[at]; }
    const Frame *begin() const && = delete;
    const Frame *end() const && = delete;
    const Frame &operator[](std::size_t) const && = delete;
    std::size_t size() const noexcept { return count_; }
    bool empty() const noexcept { return count_ == 0; }

private:
    friend class Context;
    detail::Buffer<char> text_;
    detail::Buffer<Frame> frames_;
    std::size_t count_ = 0;
};

/* What was found of one thing, or nothing. It owns the texts, as Frames does. */
template <class T> class Found {
public:
    Found() noexcept = default;
    Found(Found &&other) noexcept : text_(std::move(other.text_)), found_(std::exchange(other.found_, std::nullopt)) {}
    Found &operator=(Found &&other) noexcept
    {
        if (this != &other) {
            text_ = std::move(other.text_);
            found_ = std::exchange(other.found_, std::nullopt);
        }
        return *this;
    }

    explicit operator bool() const noexcept { return found_.has_value(); }
    bool has_value() const noexcept { return found_.has_value(); }
    const T &operator*() const & noexcept { return *found_; }
    const T *operator->() const & noexcept { return &*found_; }
    const T &operator*() const && = delete;
    const T *operator->() const && = delete;

private:
    friend class Context;
    detail::Buffer<char> text_;
    std::optional<T> found_;
};

/* An open file, or none. What a call does and when it is refused says addr2line.h. */
class Context {
public:
    /* None: its calls are refused Status::closed. */
    Context() noexcept = default;

    /* The ELF file at a path, and its supplementary file (what dwz -m wrote). */
    explicit Context(const std::string &path, Open how = Open::map) : Context(path.c_str(), path, nullptr, how) {}
    Context(const std::string &path, const std::string &sup_path, Open how = Open::map)
        : Context(path.c_str(), path, &sup_path, how)
    {
    }
    Context(const std::string &path, std::error_code &error, Open how = Open::map) noexcept
    {
        error = open_path(path, nullptr, how);
    }
    Context(const std::string &path, const std::string &sup_path, std::error_code &error, Open how = Open::map) noexcept
    {
        error = open_path(path, &sup_path, how);
    }

    /*
     * The ELF file that bytes are. They, and those of the supplementary file, must stay where they are,
     * unchanged, as long as it is open. It opens no file: where a split file is needed first, frames are
     * refused Status::waits. Open::map is refused Status::bad_flags.
     */
    static Context over(const void *bytes, std::size_t size, const void *sup, std::size_t sup_size,
                        std::error_code &error, Open how = Open::plain) noexcept
    {
        Context made;
        error = detail::error_of(
            addr2line_open_with(bytes, size, sup, sup_size, static_cast<std::uint32_t>(how), made.handle()));
        return made;
    }
    static Context over(const void *bytes, std::size_t size, std::error_code &error, Open how = Open::plain) noexcept
    {
        return over(bytes, size, nullptr, 0, error, how);
    }
    static Context over(const void *bytes, std::size_t size, const void *sup = nullptr, std::size_t sup_size = 0,
                        Open how = Open::plain)
    {
        return detail::or_throw([&](std::error_code &error) { return over(bytes, size, sup, sup_size, error, how); });
    }

    Context(Context &&other) noexcept
        : file_(std::exchange(other.file_, closed())), opens_files_(std::exchange(other.opens_files_, false)),
          frames_(std::move(other.frames_)), text_size_(other.text_size_)
    {
    }
    Context &operator=(Context &&other) noexcept
    {
        if (this != &other) {
            close();
            file_ = std::exchange(other.file_, closed());
            opens_files_ = std::exchange(other.opens_files_, false);
            frames_ = std::move(other.frames_);
            text_size_ = other.text_size_;
        }
        return *this;
    }
    Context(const Context &) = delete;
    Context &operator=(const Context &) = delete;
    ~Context() { close(); }

    /* All its memory is given back. Answers stay. */
    void close() noexcept
    {
        addr2line_file_close(&file_);
        opens_files_ = false;
    }
    bool is_open() const noexcept { return file_.handle.at != nullptr; }

    /* The errno behind Status::cannot_read: addr2line_file_errno. */
    int os_error() const noexcept { return addr2line_file_errno(&file_); }

    /*
     * The frames at an address, none where nothing is known. A Context of a path answers the split files that
     * are asked for by the files at their paths.
     */
    Frames frames(std::uint64_t address, Demangle demangle = Demangle::no)
    {
        return detail::or_throw([&](std::error_code &error) { return frames(address, error, demangle); });
    }
    Frames frames(std::uint64_t address, std::error_code &error, Demangle demangle = Demangle::no) noexcept
    {
        Frames answer;
        find_frames(address, answer, error, demangle);
        return answer;
    }

    /*
     * The same into an answer that is there, whose buffers are used again: its former frames are gone. Where it
     * has room, and this Context found as many frames before, only the library may take memory.
     */
    void find_frames(std::uint64_t address, Frames &answer, std::error_code &error,
                     Demangle demangle = Demangle::no) noexcept
    {
        answer.count_ = 0;
        std::size_t count = first_frames;
        std::size_t needed = answer.text_.size() != 0 ? answer.text_.size() : text_size_;
        addr2line_status status = ADDR2LINE_TOO_SMALL;
        while (status == ADDR2LINE_TOO_SMALL) {
            if (!frames_.grow(count) || !answer.text_.grow(needed)) {
                error = Status::out_of_memory;
                return;
            }
            const auto call = opens_files_ ? file_frames : handle_frames;
            status = call(&file_, address, static_cast<std::uint32_t>(demangle), frames_.data(), frames_.size(), &count,
                          answer.text_.data(), answer.text_.size(), &needed);
        }
        if (status == ADDR2LINE_OK) {
            text_size_ = needed > text_size_ ? needed : text_size_;
            if (!answer.frames_.grow(count)) {
                error = Status::out_of_memory;
                return;
            }
            for (std::size_t at = 0; at < count; at++) {
                answer.frames_.data()[at] = detail::seen(answer.text_.data(), frames_.data()[at]);
            }
            answer.count_ = count;
        }
        error = detail::error_of(status);
    }

    /* The location of an address; of inlined functions that of the innermost. */
    Found<Location> location(std::uint64_t address, std::error_code &error) noexcept
    {
        return find<Location, addr2line_location>(
            error, [&](auto *part, char *text, std::size_t size, std::size_t *needed) {
                return addr2line_find_location(handle(), address, part, text, size, needed);
            });
    }
    Found<Location> location(std::uint64_t address)
    {
        return detail::or_throw([&](std::error_code &error) { return location(address, error); });
    }

    /* The symbol at or nearest below an address, if its size allows. */
    Found<Symbol> symbol(std::uint64_t address, std::error_code &error) noexcept
    {
        return find<Symbol, addr2line_symbol>(
            error, [&](auto *part, char *text, std::size_t size, std::size_t *needed) {
                return addr2line_find_symbol(handle(), address, part, text, size, needed);
            });
    }
    Found<Symbol> symbol(std::uint64_t address)
    {
        return detail::or_throw([&](std::error_code &error) { return symbol(address, error); });
    }

    /* The addresses of the first section of a name. */
    std::optional<Range> section(std::string_view name, std::error_code &error) noexcept
    {
        Range range;
        const addr2line_status status =
            addr2line_section_range(handle(), name.data(), name.size(), &range.begin, &range.end);
        error = status == ADDR2LINE_NOTHING ? std::error_code() : detail::error_of(status);
        return status == ADDR2LINE_OK ? std::optional<Range>(range) : std::nullopt;
    }
    std::optional<Range> section(std::string_view name)
    {
        return detail::or_throw([&](std::error_code &error) { return section(name, error); });
    }

    /* Reads the lines and functions of all units. */
    void parse_all(std::error_code &error) noexcept { error = detail::error_of(addr2line_parse_all(handle())); }
    void parse_all()
    {
        detail::or_throw([&](std::error_code &error) { return parse_all(error); });
    }

    /* The first split file that is waited for. */
    Found<Load> load(std::error_code &error) noexcept
    {
        return find<Load, addr2line_load>(error, [&](auto *part, char *text, std::size_t size, std::size_t *needed) {
            return addr2line_get_load(handle(), part, text, size, needed);
        });
    }
    Found<Load> load()
    {
        return detail::or_throw([&](std::error_code &error) { return load(error); });
    }

    /* Answers it by the bytes of an ELF file, which must stay as those of the Context, or by none, with size 0. */
    void answer_load(std::uint64_t token, const void *bytes, std::size_t size, std::error_code &error) noexcept
    {
        error = detail::error_of(addr2line_answer_load(handle(), token, bytes, size));
    }
    void answer_load(std::uint64_t token, const void *bytes, std::size_t size)
    {
        detail::or_throw([&](std::error_code &error) { return answer_load(token, bytes, size, error); });
    }

    /* Answers each that waits by the file at its path. */
    void answer_loads(std::error_code &error) noexcept
    {
        error = detail::error_of(addr2line_file_answer_loads(&file_));
    }
    void answer_loads()
    {
        detail::or_throw([&](std::error_code &error) { return answer_loads(error); });
    }

    /* For the calls of addr2line.h that aren't here. It is the Context that closes it. */
    addr2line_handle *handle() noexcept { return &file_.handle; }

private:
    static constexpr std::size_t first_frames = 16;
    static constexpr std::size_t first_text = 512;

    static addr2line_file closed() noexcept { return ADDR2LINE_FILE_INIT; }

    static addr2line_status file_frames(addr2line_file *file, std::uint64_t address, std::uint32_t flags,
                                        addr2line_frame *frames, std::size_t capacity, std::size_t *count, char *text,
                                        std::size_t text_size, std::size_t *needed) noexcept
    {
        return addr2line_file_find_frames(file, address, flags, frames, capacity, count, text, text_size, needed);
    }
    static addr2line_status handle_frames(addr2line_file *file, std::uint64_t address, std::uint32_t flags,
                                          addr2line_frame *frames, std::size_t capacity, std::size_t *count, char *text,
                                          std::size_t text_size, std::size_t *needed) noexcept
    {
        return addr2line_find_frames(&file->handle, address, flags, frames, capacity, count, text, text_size, needed);
    }

    /* The first argument tells it from the constructors that are called. */
    Context(const char *what, const std::string &path, const std::string *sup_path, Open how)
    {
        detail::throw_if(open_path(path, sup_path, how), what);
    }

    std::error_code open_path(const std::string &path, const std::string *sup_path, Open how) noexcept
    {
        /* C reads a path up to its first zero byte, which would be that of another file. */
        if (path.find('\0') != std::string::npos
            || (sup_path != nullptr && sup_path->find('\0') != std::string::npos)) {
            return Status::cannot_read;
        }
        opens_files_ = true;
        return detail::error_of(addr2line_file_open_with(path.c_str(), sup_path == nullptr ? nullptr : sup_path->c_str(),
                                                         static_cast<std::uint32_t>(how), &file_));
    }

    /* One thing with its texts, by a call that is made again with more room where it asks for that. */
    template <class T, class Part, class Call> Found<T> find(std::error_code &error, Call call) noexcept
    {
        Found<T> answer;
        Part part = Part();
        std::size_t needed = text_size_;
        addr2line_status status = ADDR2LINE_TOO_SMALL;
        while (status == ADDR2LINE_TOO_SMALL) {
            if (!answer.text_.grow(needed)) {
                error = Status::out_of_memory;
                return answer;
            }
            status = call(&part, answer.text_.data(), answer.text_.size(), &needed);
        }
        if (status == ADDR2LINE_OK) {
            answer.found_ = detail::seen(answer.text_.data(), part);
        }
        error = status == ADDR2LINE_NOTHING ? std::error_code() : detail::error_of(status);
        return answer;
    }

    addr2line_file file_ = ADDR2LINE_FILE_INIT;
    bool opens_files_ = false;
    detail::Buffer<addr2line_frame> frames_;
    std::size_t text_size_ = first_text;
};

} // namespace addr2line

#endif
