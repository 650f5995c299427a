/* SPDX-License-Identifier: Apache-2.0 OR MIT */
/* versions: opens the device, and asks for its protocol: what a program does that only wants to know whether it is there. */
#include "raw.h"

#include <fcntl.h>
#include <stdio.h>
#include <sys/ioctl.h>
#include <unistd.h>

int main(void)
{
    struct binder_version version = {0};
    raw_begin(10);
    int fd = open(raw_device(), O_RDWR | O_CLOEXEC);
    CHECK(fd >= 0, "can't open %s", raw_device());
    CHECK(!ioctl(fd, BINDER_VERSION, &version), "it tells no version");
    close(fd);
    printf("version %d\n", version.protocol_version);
    return 0;
}
