#define _GNU_SOURCE
#include "front.h"
#include "log.h"
#include "systemd.h"

#include <fcntl.h>
#include <unistd.h>

/* Opens those of the three first descriptors that are not open, so that no other file is taken for one of them. */
static void opens_first_descriptors(void)
{
    int file;
    do
        file = open("/dev/null", O_RDWR);
    while (file >= 0 && file <= STDERR_FILENO);
    if (file >= 0)
        close(file);
}

int main(int count, char **words)
{
    static struct front front;
    int status, socket;
    opens_first_descriptors();
    if (!options_read(&front.options, count, words, &status))
        return status;
    if (front.options.is_quiet)
        log_is_quiet();
    if (!systemd_socket(&socket) || !front_begin(&front, socket))
        return 1;
    front_run(&front);
    return front_end(&front);
}
