/* duktape_main.c: Duktape, an interpreter of JavaScript. It runs its text; `print` prints its arguments. */
#include "guest.h"
#include "duktape.h"

static duk_ret_t prints(duk_context *context)
{
    duk_push_string(context, " ");
    duk_insert(context, 0);
    duk_join(context, duk_get_top(context) - 1);
    guest_prints_text(duk_safe_to_string(context, -1));
    guest_prints_text("\n");
    return 0;
}

int guest_main(void)
{
    duk_context *context = duk_create_heap_default();

    duk_push_c_function(context, prints, DUK_VARARGS);
    duk_put_global_string(context, "print");
    if (duk_peval_string(context, text_room.text) != 0) {
        guest_prints_text(duk_safe_to_string(context, -1));
        guest_prints_text("\n");
    }
    duk_destroy_heap(context);
    return guest_ends();
}
