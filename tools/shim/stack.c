/* Rust's standard library asks at its start where the stack is. To answer, the C library reads /proc/self/maps, and the toolchain's
 * emulator ends there with a fault of its own. An error is an answer too: then nothing more is done about the stack's end. */
int pthread_getattr_np(unsigned long thread, void *attributes);

int pthread_getattr_np(unsigned long thread, void *attributes) {
    (void)thread;
    (void)attributes;
    return 38; /* ENOSYS */
}
