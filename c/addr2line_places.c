/*
 * The calls of addr2line.h: each sees that it has the places that it needs, and goes on to the proved call, whose name
 * has `proved_` before it in the archive (tools/install_c_library).
 */
#include "addr2line.h"

#include <string.h>

addr2line_status proved_addr2line_status_text(addr2line_status status, char *text, size_t text_size, size_t *needed);
addr2line_status proved_addr2line_open(const void *bytes, size_t size, const void *sup, size_t sup_size,
                                       addr2line_handle *handle);
addr2line_status proved_addr2line_open_with(const void *bytes, size_t size, const void *sup, size_t sup_size,
                                            uint32_t flags, addr2line_handle *handle);
void proved_addr2line_close(addr2line_handle *handle);
addr2line_status proved_addr2line_find_location(addr2line_handle *handle, uint64_t address,
                                                addr2line_location *location, char *text, size_t text_size,
                                                size_t *needed);
addr2line_status proved_addr2line_find_frames(addr2line_handle *handle, uint64_t address, uint32_t flags,
                                              addr2line_frame *frames, size_t capacity, size_t *count,
                                              char *text, size_t text_size, size_t *needed);
addr2line_status proved_addr2line_get_load(addr2line_handle *handle, addr2line_load *load,
                                           char *text, size_t text_size, size_t *needed);
addr2line_status proved_addr2line_answer_load(addr2line_handle *handle, uint64_t token, const void *bytes, size_t size);
addr2line_status proved_addr2line_forget(addr2line_handle *handle, uint64_t token);
addr2line_status proved_addr2line_preload(addr2line_handle *handle, uint64_t address);
addr2line_status proved_addr2line_parse_all(addr2line_handle *handle);
addr2line_status proved_addr2line_locations(addr2line_handle *handle, uint64_t low, uint64_t high, uint64_t first,
                                            addr2line_span *spans, size_t capacity, size_t *count,
                                            char *text, size_t text_size, size_t *needed);
addr2line_status proved_addr2line_find_symbol(addr2line_handle *handle, uint64_t address, addr2line_symbol *symbol,
                                              char *text, size_t text_size, size_t *needed);
addr2line_status proved_addr2line_section_range(addr2line_handle *handle, const void *name, size_t name_size,
                                                uint64_t *begin, uint64_t *end);

/* Whether so many items have no place. */
static int lack(const void *place, size_t count)
{
    return place == NULL && count != 0;
}

/* Whether a text has no place. */
static int lacks_text(const char *text, size_t text_size, const size_t *needed)
{
    return needed == NULL || lack(text, text_size);
}

/* Writes what the one status says that the proved calls don't know. */
static addr2line_status tell_no_place(char *text, size_t text_size, size_t *needed)
{
    static const char said[] = "a place is missing";
    *needed = sizeof said;
    if (text_size != 0) {
        memcpy(text, said, text_size < sizeof said ? text_size : sizeof said);
    }
    return text_size < sizeof said ? ADDR2LINE_TOO_SMALL : ADDR2LINE_OK;
}

addr2line_status addr2line_status_text(addr2line_status status, char *text, size_t text_size, size_t *needed)
{
    if (lacks_text(text, text_size, needed)) {
        return ADDR2LINE_NO_PLACE;
    }
    if (status == ADDR2LINE_NO_PLACE) {
        return tell_no_place(text, text_size, needed);
    }
    return proved_addr2line_status_text(status, text, text_size, needed);
}

addr2line_status addr2line_open(const void *bytes, size_t size, const void *sup, size_t sup_size,
                                addr2line_handle *handle)
{
    if (handle == NULL || lack(bytes, size) || lack(sup, sup_size)) {
        return ADDR2LINE_NO_PLACE;
    }
    return proved_addr2line_open(bytes, size, sup, sup_size, handle);
}

addr2line_status addr2line_open_with(const void *bytes, size_t size, const void *sup, size_t sup_size,
                                     uint32_t flags, addr2line_handle *handle)
{
    if (handle == NULL || lack(bytes, size) || lack(sup, sup_size)) {
        return ADDR2LINE_NO_PLACE;
    }
    return proved_addr2line_open_with(bytes, size, sup, sup_size, flags, handle);
}

void addr2line_close(addr2line_handle *handle)
{
    if (handle != NULL) {
        proved_addr2line_close(handle);
    }
}

addr2line_status addr2line_find_location(addr2line_handle *handle, uint64_t address,
                                         addr2line_location *location, char *text, size_t text_size,
                                         size_t *needed)
{
    if (handle == NULL || location == NULL || lacks_text(text, text_size, needed)) {
        return ADDR2LINE_NO_PLACE;
    }
    return proved_addr2line_find_location(handle, address, location, text, text_size, needed);
}

addr2line_status addr2line_find_frames(addr2line_handle *handle, uint64_t address, uint32_t flags,
                                       addr2line_frame *frames, size_t capacity, size_t *count,
                                       char *text, size_t text_size, size_t *needed)
{
    if (handle == NULL || count == NULL || lack(frames, capacity) || lacks_text(text, text_size, needed)) {
        return ADDR2LINE_NO_PLACE;
    }
    return proved_addr2line_find_frames(handle, address, flags, frames, capacity, count, text, text_size, needed);
}

addr2line_status addr2line_get_load(addr2line_handle *handle, addr2line_load *load,
                                    char *text, size_t text_size, size_t *needed)
{
    if (handle == NULL || load == NULL || lacks_text(text, text_size, needed)) {
        return ADDR2LINE_NO_PLACE;
    }
    return proved_addr2line_get_load(handle, load, text, text_size, needed);
}

addr2line_status addr2line_answer_load(addr2line_handle *handle, uint64_t token, const void *bytes, size_t size)
{
    if (handle == NULL || lack(bytes, size)) {
        return ADDR2LINE_NO_PLACE;
    }
    return proved_addr2line_answer_load(handle, token, bytes, size);
}

addr2line_status addr2line_forget(addr2line_handle *handle, uint64_t token)
{
    return handle == NULL ? ADDR2LINE_NO_PLACE : proved_addr2line_forget(handle, token);
}

addr2line_status addr2line_preload(addr2line_handle *handle, uint64_t address)
{
    return handle == NULL ? ADDR2LINE_NO_PLACE : proved_addr2line_preload(handle, address);
}

addr2line_status addr2line_parse_all(addr2line_handle *handle)
{
    return handle == NULL ? ADDR2LINE_NO_PLACE : proved_addr2line_parse_all(handle);
}

addr2line_status addr2line_locations(addr2line_handle *handle, uint64_t low, uint64_t high, uint64_t first,
                                     addr2line_span *spans, size_t capacity, size_t *count,
                                     char *text, size_t text_size, size_t *needed)
{
    if (handle == NULL || count == NULL || lack(spans, capacity) || lacks_text(text, text_size, needed)) {
        return ADDR2LINE_NO_PLACE;
    }
    return proved_addr2line_locations(handle, low, high, first, spans, capacity, count, text, text_size, needed);
}

addr2line_status addr2line_find_symbol(addr2line_handle *handle, uint64_t address, addr2line_symbol *symbol,
                                       char *text, size_t text_size, size_t *needed)
{
    if (handle == NULL || symbol == NULL || lacks_text(text, text_size, needed)) {
        return ADDR2LINE_NO_PLACE;
    }
    return proved_addr2line_find_symbol(handle, address, symbol, text, text_size, needed);
}

addr2line_status addr2line_section_range(addr2line_handle *handle, const void *name, size_t name_size,
                                         uint64_t *begin, uint64_t *end)
{
    if (handle == NULL || begin == NULL || end == NULL || lack(name, name_size)) {
        return ADDR2LINE_NO_PLACE;
    }
    return proved_addr2line_section_range(handle, name, name_size, begin, end);
}
