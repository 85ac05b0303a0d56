/* A Rust program asks at its start where its stack is. The C library finds that out for the main
 * thread from /proc/self/maps, and the kit's emulator ends when that file is opened. This returns
 * an error instead. Rust accepts the error, and then sets no guard page. */
int pthread_getattr_np(unsigned long thread, void *attributes) {
    (void)thread, (void)attributes;
    return 38; /* ENOSYS */
}
