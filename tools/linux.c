/* SPDX-License-Identifier: Apache-2.0 OR MIT */
/* The header's numbers beside those of <linux/android/binder.h>: this compiles where they are the same, and prints nothing. */
#include "hullpippin.h"

#include <sys/types.h>
#include <linux/android/binder.h>

#define IS_LINUX(name) _Static_assert(HULLPIPPIN_##name == (uint32_t)name, "HULLPIPPIN_" #name " isn't Linux's " #name)
#define IS_LINUX_TYPE(name) _Static_assert(HULLPIPPIN_TYPE_##name == (uint32_t)BINDER_TYPE_##name, "HULLPIPPIN_TYPE_" #name " isn't Linux's")

IS_LINUX(TF_ONE_WAY);
IS_LINUX(TF_ROOT_OBJECT);
IS_LINUX(TF_STATUS_CODE);
IS_LINUX(TF_ACCEPT_FDS);
IS_LINUX(TF_CLEAR_BUF);
IS_LINUX(TF_UPDATE_TXN);

IS_LINUX(BC_TRANSACTION);
IS_LINUX(BC_REPLY);
IS_LINUX(BC_FREE_BUFFER);
IS_LINUX(BC_INCREFS);
IS_LINUX(BC_ACQUIRE);
IS_LINUX(BC_RELEASE);
IS_LINUX(BC_DECREFS);
IS_LINUX(BC_INCREFS_DONE);
IS_LINUX(BC_ACQUIRE_DONE);
IS_LINUX(BC_ENTER_LOOPER);
IS_LINUX(BC_EXIT_LOOPER);
IS_LINUX(BC_REQUEST_DEATH_NOTIFICATION);
IS_LINUX(BC_CLEAR_DEATH_NOTIFICATION);
IS_LINUX(BC_DEAD_BINDER_DONE);

IS_LINUX(BR_TRANSACTION);
IS_LINUX(BR_REPLY);
IS_LINUX(BR_DEAD_REPLY);
IS_LINUX(BR_TRANSACTION_COMPLETE);
IS_LINUX(BR_INCREFS);
IS_LINUX(BR_ACQUIRE);
IS_LINUX(BR_RELEASE);
IS_LINUX(BR_DECREFS);
IS_LINUX(BR_NOOP);
IS_LINUX(BR_DEAD_BINDER);
IS_LINUX(BR_CLEAR_DEATH_NOTIFICATION_DONE);
IS_LINUX(BR_FAILED_REPLY);
IS_LINUX(BR_ONEWAY_SPAM_SUSPECT);

IS_LINUX_TYPE(BINDER);
IS_LINUX_TYPE(WEAK_BINDER);
IS_LINUX_TYPE(HANDLE);
IS_LINUX_TYPE(WEAK_HANDLE);
IS_LINUX_TYPE(FD);
IS_LINUX_TYPE(FDA);
IS_LINUX_TYPE(PTR);

_Static_assert(sizeof(hullpippin_transaction) == sizeof(struct binder_transaction_data), "a transaction record isn't as long as Linux's");
_Static_assert(HULLPIPPIN_READ_LEAST == 2 * sizeof(uint32_t) + sizeof(struct binder_transaction_data), "the longest return isn't as long as Linux's");
_Static_assert(HULLPIPPIN_RETURN_ROOM == sizeof(uint32_t) + sizeof(struct binder_transaction_data_secctx), "a return has another room than Linux's");

int main(void)
{
    return 0;
}
