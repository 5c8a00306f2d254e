/* What stands around a verdict, for addon.c to put among its functions. */
#include <node_api.h>

/* A function, by its name in JavaScript. */
typedef struct named_call {
    const char *name;
    napi_callback call;
} named_call;

/* The functions of around.c; the last one has no name. */
extern const named_call around[];
