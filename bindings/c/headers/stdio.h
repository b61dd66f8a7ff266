/* Of the C library's header, what the examples and lampughjata.h use. */
int printf(const char *format, ...);
