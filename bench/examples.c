#include "examples.h"

#include "copies.h"

/* f(X1, .., Xn) and f(a1, .., an) */
static void one_example_2(struct job *job, uint16_t first_label, uint16_t n) {
    uint16_t left = put_function(job, 1, n);
    for (uint16_t i = 0; i < n; i++)
        put_word(job, STATION_VARIABLE(first_label + i));
    uint16_t right = put_function(job, 1, n);
    for (uint16_t i = 0; i < n; i++)
        put_word(job, STATION_CONSTANT(i));
    put_pair(job, left, right);
}

void example_2(struct job *job, size_t words, uint16_t n) {
    begin_job(job);
    size_t copies = copies_in(words, 4 + 2 * (size_t)n);
    for (size_t k = 0; k < copies; k++)
        one_example_2(job, (uint16_t)(k * n), n);
}

/* n - 1 blocks g(V1, V1), g(V2, V2), .. whose variables stand in them. Returns the address of the first;
 * the next is 4 words further, and a block's variable 2 words into it. */
static uint16_t doubled(struct job *job, uint16_t first_label, uint16_t n) {
    uint16_t first = 0;
    for (uint16_t i = 0; i + 1 < n; i++) {
        uint16_t block = put_function(job, 2, 2);
        uint16_t variable = put_word(job, STATION_VARIABLE(first_label + i));
        put_word(job, STATION_POINTER_TO(variable));
        if (i == 0)
            first = block;
    }
    return first;
}

/* f(g(X1,X1), .., g(Xn-1,Xn-1), Y2, .., Yn, Yn) and f(X2, .., Xn, g(Y1,Y1), .., g(Yn-1,Yn-1), Xn) */
static void one_example_3(struct job *job, uint16_t first_label, uint16_t n) {
    uint16_t gx = doubled(job, first_label, n), gy = doubled(job, (uint16_t)(first_label + n), n);
    uint16_t last = (uint16_t)(n - 1), arguments = (uint16_t)(2 * n - 1);
    uint16_t left = put_function(job, 1, arguments);
    for (uint16_t i = 0; i < last; i++)
        put_word(job, STATION_POINTER_TO(gx + 4 * i));
    for (uint16_t i = 1; i < last; i++)
        put_word(job, STATION_POINTER_TO(gy + 4 * i + 2));
    uint16_t yn = put_word(job, STATION_VARIABLE(first_label + n + last));
    put_word(job, STATION_POINTER_TO(yn));
    uint16_t right = put_function(job, 1, arguments);
    for (uint16_t i = 1; i < last; i++)
        put_word(job, STATION_POINTER_TO(gx + 4 * i + 2));
    uint16_t xn = put_word(job, STATION_VARIABLE(first_label + last));
    for (uint16_t i = 0; i < last; i++)
        put_word(job, STATION_POINTER_TO(gy + 4 * i));
    put_word(job, STATION_POINTER_TO(xn));
    put_pair(job, left, right);
}

void example_3(struct job *job, size_t words, uint16_t n) {
    begin_job(job);
    size_t copies = copies_in(words, 12 * (size_t)n - 6);
    for (size_t k = 0; k < copies; k++)
        one_example_3(job, (uint16_t)(2 * k * n), n);
}
