/* The program `bench`: the proved routine `bench_run`, with its status. A closed pipe is a write that fails, not a signal. */
#include <signal.h>
#include <stdint.h>

uint32_t bench_run(void);

int main(void)
{
    signal(SIGPIPE, SIG_IGN);
    return (int)bench_run();
}
