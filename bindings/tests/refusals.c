/* What a refusal says: the field that stands for no choice is named where G3_BAD_CHOICE is answered, and nowhere else; one address for two
 * handles, and NULL, have their statuses; and no octets have no address. Prints what differs, and ends with 1 then. */
#include "statuses.h"

static void choices(void)
{
    static const uint32_t widths[] = {0, 1727, 1728, 1729, 2048, 2432, 2433}, frames[] = {0, 63, 64, 65, 255, 256, 257};
    g3_dis dis = {1, G3_V17, 1, 2432, 1, 1};
    g3_params params = G3_INIT(g3_params);
    uint32_t why;
    for (uint32_t at = 0; at < 5 * 7 * 3 * 3 * 3; at++) {
        g3_caps caps = {at % 5, at / 105 % 3, at / 315 % 3, widths[at / 5 % 7], at / 35 % 3};
        g3_wish wish = {at % 5, at / 35 % 4, frames[at / 5 % 7]};
        g3_code code = {at % 5, at / 5 % 4, at % 7 ? 8 : 2433, at / 35 % 3};
        g3_terminal terminal = G3_EMPTY;
        g3_row_coder coder = G3_EMPTY;
        IS(g3_caps_wrong(&caps) != NULL, g3_answerer_new(&terminal, &caps) == G3_BAD_CHOICE);
        IS(g3_wish_wrong(&wish) != NULL, g3_agree(&dis, &wish, 1728, 1, &params, &why) == G3_BAD_CHOICE);
        IS(g3_code_wrong(&code) != NULL, g3_row_coder_new(&coder, &code) == G3_BAD_CHOICE);
        g3_terminal_free(&terminal), g3_row_coder_free(&coder);
    }
    IS(1, g3_caps_wrong(NULL) == NULL && g3_wish_wrong(NULL) == NULL && g3_code_wrong(NULL) == NULL);
    g3_caps caps = {4, 1, 1, 9, 0};
    IS(0, strcmp(g3_caps_wrong(&caps), "modems"));
    caps.modems = G3_V29;
    IS(0, strcmp(g3_caps_wrong(&caps), "widest"));
    caps.widest = 1728;
    IS(0, strcmp(g3_caps_wrong(&caps), "limit"));
    g3_wish wish = {G3_V17, 3, 1};
    IS(0, strcmp(g3_wish_wrong(&wish), "coding"));
    wish.coding = G3_MH;
    IS(0, strcmp(g3_wish_wrong(&wish), "frame"));
    g3_code code = {G3_MH, 2, 8};
    IS(0, strcmp(g3_code_wrong(&code), "order"));
    code.coding = 0;
    IS(0, strcmp(g3_code_wrong(&code), "coding"));
}

/* one handle in two places, full and empty */
static void twice(void)
{
    g3_code mmr = {G3_MMR, G3_MSB_FIRST, 8};
    g3_caps caps = {G3_V17, 1, 1, 2432, 1};
    g3_wish wish = {G3_V17, G3_MMR, 256};
    g3_burst burst = G3_INIT(g3_burst);
    g3_row_coder k = G3_EMPTY;
    g3_terminal t = G3_EMPTY;
    g3_document d = G3_EMPTY;
    uint64_t count = 9;
    for (int full = 0; full < 2; full++) {
        g3_status as = full ? G3_FULL_HANDLE : G3_EMPTY_HANDLE;
        IS(as, g3_row_coder_take(&k, (void *)&k));
        IS(as, g3_row_coder_finish(&k, (void *)&k));
        IS(as, g3_terminal_next_burst(&t, (void *)&t, &burst));
        IS(as, g3_terminal_take_page(&t, (void *)&t));
        IS(as, g3_terminal_hold(&t, (void *)&t));
        IS(as, g3_caller_new((void *)&d, &d, &wish));
        IS(as, g3_caller_new_from((void *)&d, &d, 0, &wish));
        IS(as, g3_terminal_take_document(&t, (void *)&t, &count));
        IS(full ? G3_OTHER_HANDLE : G3_EMPTY_HANDLE, g3_document_push(&d, (void *)&d));
        if (full) break;
        IS(G3_OK, g3_row_coder_new(&k, &mmr));
        IS(G3_OK, g3_answerer_new(&t, &caps));
        IS(G3_OK, g3_document_new(&d));
    }
    g3_octets none = G3_EMPTY;
    const uint8_t *data = octets;
    IS(G3_OK, g3_row_coder_take(&k, &none));
    IS(G3_OK, g3_octets_data(&none, &data, &count));
    IS(1, data == NULL && count == 0);
    IS(G3_NO_ADDRESS, g3_octets_data(&none, NULL, &count));
    IS(G3_NO_ADDRESS, g3_row_coder_push_row(&k, NULL, 1));
    IS(G3_BAD_LENGTH, g3_row_coder_push_row(&k, NULL, 0));
    g3_octets_free(&none), g3_row_coder_free(&k), g3_terminal_free(&t), g3_document_free(&d);
}

int main(void)
{
    choices();
    twice();
    return bad;
}
