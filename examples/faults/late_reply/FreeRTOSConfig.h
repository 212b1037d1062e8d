/* What of the kernel's configuration matters here. */
#define configTICK_RATE_HZ ((TickType_t)100)
