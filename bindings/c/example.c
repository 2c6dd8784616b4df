/* Three destinations share chutes: one is given a chute, the list is propagated, and the rest is read. */
#include "pirozhkan.h"
#include <inttypes.h>
#include <stdio.h>

int main(void) {
    static uint64_t state[PIROZHKAN_WORDS];
    const uint32_t list[] = {20, 21, 22};
    pirozhkan_new(state, PIROZHKAN_WORDS);
    for (int i = 0; i < 3; i++) pirozhkan_add_variable(state, PIROZHKAN_WORDS, list[i], 1, 3);
    pirozhkan_assign_variable(state, PIROZHKAN_WORDS, 20, 2);
    pirozhkan_changed_consistent did = pirozhkan_pair(pirozhkan_propagate_alldiff(state, PIROZHKAN_WORDS, list, 3));
    printf("changed %d consistent %d\n", did.changed, did.consistent);
    for (int i = 0; i < 3; i++) {
        int32_t chutes[128];
        pirozhkan_count n = pirozhkan_counted(pirozhkan_get_domain_values(state, PIROZHKAN_WORDS, list[i], chutes, 128));
        printf("%" PRIu32 ":", list[i]);
        for (uint64_t k = 0; k < n.count; k++) printf(" %" PRId32, chutes[k]);
        printf("\n");
    }
    return 0;
}
