/* A fax terminal on two streams of sound, signed samples of 16 bits, 8,000 a second, or on a Class 1 modem.
 *
 *     softfax --call PAGE.pbm.. --rx IN --tx OUT [..]
 *     softfax --answer DIR --rx IN --tx OUT [..]
 *     softfax --tty DEVICE --call NUMBER PAGE.pbm.. [..]
 *     softfax --tty DEVICE --answer DIR [..]
 *
 * docs/AUDIO.md has the options. A caller sends its pages; an answerer writes those that come to DIR/page-1.pbm and so on. Samples keep the
 * time of a call over sound, and the machine's clock that of one over a modem. SIGINT and SIGTERM end it in order. Status 0: the call ended
 * normally; 1: it didn't, or a file is at fault; 2: the words are no command. */
#include "service.h"
#include "sound_call.h"
#include "stop.h"

int main(int argc, char **argv)
{
    options given = {.modems = G3_V17, .coding = G3_MMR, .rings = 1, .most_seconds = MOST_SECONDS};
    static call it;
    if (!options_read(&given, argc, argv)) return options_usage(), 2;
    it.given = &given;
    stop_watch(given.most_seconds, given.limits_wait);
    int is_well = call_prepare(&it);
    if (is_well && given.tty != NULL) is_well = service_run(&it);
    else if (is_well) {
        is_well = sound_call_run(&it);
        is_well &= call_end(&it);
    }
    call_free(&it);
    return !is_well;
}
