/* Of the C library's header, what the examples and lampughjata.h use. */
typedef __SIZE_TYPE__ size_t;
#define NULL ((void *)0)
