// Output, and the end of a thread. A text is written by one call of the kernel for each 256 bytes of it.
#include <stdint.h>
#include <stdio.h>
#include <stdlib.h>
#include <string.h>

// Where a text goes: to `to`, of which `size` bytes are there, or where that is null to the output, by way of `part`.
struct sink {
    char *to;
    size_t size, count;
    char part[256];
};

static void write_out(const char *text, uint64_t size) {
    register uint64_t x0 __asm__("x0") = 1;
    register const char *x1 __asm__("x1") = text;
    register uint64_t x2 __asm__("x2") = size;
    register uint64_t x8 __asm__("x8") = 64;
    __asm__ volatile("svc #0" : "+r"(x0) : "r"(x1), "r"(x2), "r"(x8) : "memory");
}

static void add(struct sink *sink, char byte) {
    if (!sink->to) {
        sink->part[sink->count % sizeof sink->part] = byte;
        if (sink->count % sizeof sink->part == sizeof sink->part - 1) write_out(sink->part, sizeof sink->part);
    } else if (sink->count + 1 < sink->size) {
        sink->to[sink->count] = byte;
    }
    sink->count++;
}

static void add_times(struct sink *sink, char byte, int64_t times) {
    while (times-- > 0) add(sink, byte);
}

static void add_text(struct sink *sink, const char *text, size_t length) {
    for (size_t i = 0; i < length; i++) add(sink, text[i]);
}

// What stands between % and the letter.
struct form {
    uint8_t left, zeros, plus, space, other;
    int64_t width, precision; // a precision of -1 is none
    int size;                 // in bytes
};

static int64_t number_of(const char **at, va_list *arguments) {
    int64_t number = 0;
    if (**at == '*') return ++*at, va_arg(*arguments, int);
    while (**at >= '0' && **at <= '9') number = 10 * number + *(*at)++ - '0';
    return number;
}

static int size_of(const char **at) {
    switch (**at) {
    case 'h': return *++*at == 'h' ? ++*at, 1 : 2;
    case 'l': return *++*at == 'l' ? ++*at, 8 : 8;
    case 'z': case 'j': case 't': return ++*at, 8;
    default: return 4;
    }
}

static struct form form_of(const char **at, va_list *arguments) {
    struct form form = {.precision = -1};
    for (;; ++*at) {
        if (**at == '-') form.left = 1;
        else if (**at == '0') form.zeros = 1;
        else if (**at == '+') form.plus = 1;
        else if (**at == ' ') form.space = 1;
        else if (**at == '#') form.other = 1;
        else break;
    }
    form.width = number_of(at, arguments);
    if (form.width < 0) form.left = 1, form.width = -form.width;
    if (**at == '.') ++*at, form.precision = number_of(at, arguments);
    form.size = size_of(at);
    return form;
}

static void add_form(struct sink *sink, const struct form *form, const char *sign, const char *text, int64_t length, int64_t zeros) {
    int64_t spaces = form->width - (int64_t)strlen(sign) - zeros - length;
    if (!form->left) add_times(sink, ' ', spaces);
    add_text(sink, sign, strlen(sign));
    add_times(sink, '0', zeros);
    add_text(sink, text, length);
    if (form->left) add_times(sink, ' ', spaces);
}

static void add_number(struct sink *sink, const struct form *form, char letter, uint64_t number, const char *sign) {
    uint64_t base = letter == 'x' || letter == 'X' || letter == 'p' ? 16 : letter == 'o' ? 8 : 10;
    const char *digits = letter == 'X' ? "0123456789ABCDEF" : "0123456789abcdef";
    char text[24];
    int at = sizeof text;
    for (uint64_t left = number; left; left /= base) text[--at] = digits[left % base];
    int64_t length = sizeof text - at, least = form->precision < 0 ? 1 : form->precision;
    if (base == 8 && form->other && least <= length) least = length + 1;
    if (base == 16 && form->other && (number || letter == 'p')) sign = letter == 'X' ? "0X" : "0x";
    if (form->zeros && !form->left && form->precision < 0) least = form->width - (int64_t)strlen(sign);
    add_form(sink, form, sign, text + at, length, least > length ? least - length : 0);
}

// Its low bytes, with a sign or without.
static uint64_t integer_of(const struct form *form, char letter, va_list *arguments) {
    uint64_t number = form->size == 8 ? va_arg(*arguments, uint64_t) : va_arg(*arguments, unsigned);
    int unused = 64 - 8 * form->size;
    return letter == 'd' || letter == 'i' ? (uint64_t)((int64_t)(number << unused) >> unused) : number << unused >> unused;
}

// Adds one conversion; false where it is none of those that are there.
static int add_one(struct sink *sink, struct form *form, char letter, va_list *arguments) {
    uint64_t number;
    const char *text;
    char byte;
    switch (letter) {
    case 'd': case 'i':
        number = integer_of(form, letter, arguments);
        if ((int64_t)number < 0) add_number(sink, form, letter, -number, "-");
        else add_number(sink, form, letter, number, form->plus ? "+" : form->space ? " " : "");
        return 1;
    case 'u': case 'x': case 'X': case 'o':
        add_number(sink, form, letter, integer_of(form, letter, arguments), "");
        return 1;
    case 'p':
        form->other = 1;
        add_number(sink, form, letter, va_arg(*arguments, uintptr_t), "");
        return 1;
    case 'c':
        byte = va_arg(*arguments, int);
        add_form(sink, form, "", &byte, 1, 0);
        return 1;
    case 's':
        text = va_arg(*arguments, const char *);
        add_form(sink, form, "", text, form->precision < 0 ? strlen(text) : strnlen(text, form->precision), 0);
        return 1;
    case '%':
        add(sink, '%');
        return 1;
    }
    return 0;
}

static void add_all(struct sink *sink, const char *format, va_list *arguments) {
    for (; *format; format++) {
        if (*format != '%') {
            add(sink, *format);
            continue;
        }
        format++;
        struct form form = form_of(&format, arguments);
        if (!add_one(sink, &form, *format, arguments)) abort();
    }
}

int vsnprintf(char *to, size_t size, const char *format, va_list arguments) {
    char none;
    struct sink sink = {.to = size ? to : &none, .size = size};
    va_list copy;
    va_copy(copy, arguments);
    add_all(&sink, format, &copy);
    va_end(copy);
    if (size) to[sink.count < size ? sink.count : size - 1] = 0;
    return sink.count;
}

int vprintf(const char *format, va_list arguments) {
    struct sink sink = {.to = 0};
    va_list copy;
    va_copy(copy, arguments);
    add_all(&sink, format, &copy);
    va_end(copy);
    write_out(sink.part, sink.count % sizeof sink.part);
    return sink.count;
}

int snprintf(char *to, size_t size, const char *format, ...) {
    va_list arguments;
    va_start(arguments, format);
    int count = vsnprintf(to, size, format, arguments);
    va_end(arguments);
    return count;
}

int printf(const char *format, ...) {
    va_list arguments;
    va_start(arguments, format);
    int count = vprintf(format, arguments);
    va_end(arguments);
    return count;
}

int puts(const char *text) {
    write_out(text, strlen(text));
    return putchar('\n');
}

int putchar(int byte) {
    char text = byte;
    write_out(&text, 1);
    return (uint8_t)byte;
}

_Noreturn void exit(int status) {
    register uint64_t x0 __asm__("x0") = status;
    register uint64_t x8 __asm__("x8") = 93;
    __asm__ volatile("svc #0" : : "r"(x0), "r"(x8));
    __builtin_unreachable();
}

_Noreturn void abort(void) {
    __asm__ volatile("brk #1");
    __builtin_unreachable();
}
