/* What stands around a verdict, for jni.c to give Native.java. */
#include <jni.h>

#define ROW(name, signature, function) { (char *)(name), (char *)(signature), (void *)(intptr_t)(function) }

/* Gives the class the functions of around.c; 0 where that went well. */
jint register_around(JNIEnv *env, jclass class);
