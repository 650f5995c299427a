/* SPDX-License-Identifier: Apache-2.0 OR MIT */
/*
 * acts.h: what a hostile client does. Each act runs in a process of its own, which is killed after a moment or ends
 * by itself.
 */
#ifndef HULLPIPPIN_TESTS_ACTS_H
#define HULLPIPPIN_TESTS_ACTS_H

#include <stdint.h>

struct page;

/* How often an act does what it does, unless it is killed before. */
#define ROUNDS 400

/* The device of those who are served honestly, or one on which the hostile play with each other. */
const char *act_device(void);
/* A request of a page for a stream of some size, which is right more often than not. */
void act_request(struct page *page, uint32_t stream);

/* On their own: */
void act_garbage_packets(void);
void act_deaf(void);
void act_garbage_page(void);
void act_changing_page(void);
void act_crowd(void);
void act_ringing(void);
void act_gone(void);
/* In pairs, and with bells: */
void act_shrinking_memory(void);
void act_hoard(void);
void act_silent_receiver(void);
void act_shared_bell(void);
void act_shared_doorbell(void);

#endif
