/* The mailbox of mailbox.rgo as it is written by hand; scripts/c_sizes measures it beside the C that rgc emits. */
#include BOARD

struct mailbox {
    const uint8_t message;
    volatile uint8_t slot, full;
    uint8_t copy;
};

void mailbox_run_sender(struct mailbox *w);
void mailbox_run_receiver(struct mailbox *w);

void mailbox_run_sender(struct mailbox *w)
{
    w->slot = w->message;
    w->full = 1;
}

void mailbox_run_receiver(struct mailbox *w)
{
    while (w->full == 0) {
    }
    w->copy = w->slot;
    w->full = 0;
}
