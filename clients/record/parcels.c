/* SPDX-License-Identifier: Apache-2.0 OR MIT */
/* parcels.c: what stands in the program's memory, which may not be there. */
#include "record.h"

#include <errno.h>
#include <linux/android/binder.h>
#include <string.h>
#include <sys/syscall.h>
#include <sys/uio.h>
#include <unistd.h>

size_t record_padded(size_t size)
{
    return (size + 7) & ~(size_t)7;
}

/* By the kernel, which refuses where a load would end the program. */
static bool take_all(const struct iovec *to, const struct iovec *from, unsigned long count, size_t size)
{
    int error = errno;
    bool is_there = !size || syscall(SYS_process_vm_readv, record_pid(), to, count, from, count, 0) == (ssize_t)size;
    errno = error;
    return is_there;
}

bool record_take(void *to, uint64_t from, size_t size)
{
    struct iovec its = {to, size}, other = {(void *)(uintptr_t)from, size};
    return take_all(&its, &other, 1, size);
}

static bool is_parcel(uint32_t code, bool are_sent)
{
    if (are_sent)
        return code == BC_TRANSACTION || code == BC_REPLY || code == BC_TRANSACTION_SG || code == BC_REPLY_SG;
    return code == BR_TRANSACTION || code == BR_REPLY || code == BR_TRANSACTION_SEC_CTX;
}

/* A parcel's data, and its offsets behind them. */
static void take_parcel(uint8_t *to, size_t data, const struct binder_transaction_data *record, bool is_sent, uint32_t *flags)
{
    void *from = (void *)(uintptr_t)record->data.ptr.buffer, *offsets = (void *)(uintptr_t)record->data.ptr.offsets;
    memset(to, 0, data + record_padded(record->offsets_size));
    if (!is_sent) { /* it stands in the window */
        memcpy(to, from, record->data_size);
        memcpy(to + data, offsets, record->offsets_size);
        return;
    }
    struct iovec its[2] = {{to, record->data_size}, {to + data, record->offsets_size}};
    struct iovec others[2] = {{from, record->data_size}, {offsets, record->offsets_size}};
    if (!take_all(its, others, 2, record->data_size + record->offsets_size))
        *flags |= PARCEL_UNREADABLE;
}

size_t record_parcels(uint8_t *to, size_t room, const uint8_t *stream, size_t size, bool are_sent, uint32_t *flags)
{
    size_t used = 0;
    uint32_t code;
    struct binder_transaction_data record;
    for (size_t at = 0; size - at >= sizeof code; at += sizeof code + _IOC_SIZE(code)) {
        memcpy(&code, stream + at, sizeof code);
        if (size - at < sizeof code + _IOC_SIZE(code))
            break;
        if (!is_parcel(code, are_sent))
            continue;
        memcpy(&record, stream + at + sizeof code, sizeof record);
        size_t data = record_padded(record.data_size), whole = data + record_padded(record.offsets_size);
        bool is_short = record.data_size <= room && record.offsets_size <= room && whole <= room - used;
        if (!is_short || !record_reaches(to + used + whole)) {
            *flags |= PARCEL_TOO_LONG;
            break;
        }
        take_parcel(to + used, data, &record, are_sent, flags);
        used += whole;
    }
    return used;
}
