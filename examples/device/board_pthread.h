/* Threads: a critical section is a stretch under one lock. A file that has the lock says `pthread_mutex_t board_lock = PTHREAD_MUTEX_INITIALIZER;`. */
#ifndef BOARD_PTHREAD_H
#define BOARD_PTHREAD_H
#include <pthread.h>
#include <sched.h>

extern pthread_mutex_t board_lock;
#define RGC_ENTER(w) ((void)pthread_mutex_lock(&board_lock))
#define RGC_LEAVE(w) ((void)pthread_mutex_unlock(&board_lock))
#define RGC_WAIT(w) ((void)(w), (void)sched_yield())

#endif
