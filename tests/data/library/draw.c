#include "draw.h"

/* How many parts a slice has: mostly few, and sometimes as many as one or two groups of terminals
   that the library works on at once, or about as many. */
static size_t draw_parts(struct chance *chance)
{
    static const uint8_t near_groups[] = {63, 64, 65, 127, 128, 129, 130};
    return one_in(chance, 64) ? near_groups[below(chance, sizeof near_groups)] : below(chance, 4);
}

/* A right size for a slice. Of padding it is one that fits a key of 16 bytes, and of 24. */
static size_t right_size(struct chance *chance, const struct call *call,
                         const struct argument *given, size_t at)
{
    const struct parameter *parameter = &call->parameters[at];
    switch (parameter->sizes) {
    case DOUBLE_OR_TRIPLE:
        return one_in(chance, 2) ? 16 : 24;
    case FROM_TO:
    case AT_LEAST:
        return parameter->least + below(chance, (uint32_t)(parameter->most - parameter->least + 1));
    case ROOM:
        return parameter->most + (one_in(chance, 3) ? below(chance, 40) : 0);
    case OPTIONAL_BLOCKS:
        return 0;
    case WHOLE_BLOCKS:
        return 8 * below(chance, (uint32_t)parameter->most / 8 + 1);
    case PARTS:
        return parameter->least * draw_parts(chance);
    case FOR_EACH:
        return size_for_each(call, given, at) + (one_in(chance, 3) ? below(chance, 40) : 0);
    case FILLING_BLOCKS:
        return 6 + 8 * below(chance, 4);
    default:
        return parameter->most;
    }
}

void draw_arguments(struct chance *chance, const struct call *call, struct argument *given)
{
    for (size_t i = 0; i < argument_count(call); i++) {
        const struct parameter *parameter = &call->parameters[i];
        given[i].size = 0;
        if (parameter->kind == NUMBER)
            draw_bytes(chance, (uint8_t *)&given[i].number, sizeof given[i].number);
        else
            resize(chance, &given[i],
                   parameter->kind == COUNT ? sizeof(uint32_t)
                                            : right_size(chance, call, given, i));
    }
    if (call->draw != NULL)
        call->draw(chance, given);
}

void resize(struct chance *chance, struct argument *slice, size_t size)
{
    if (size > slice->size)
        draw_bytes(chance, slice->bytes + slice->size, size - slice->size);
    slice->size = size;
}
