#include "summary.h"
#include "tuned.h"

void tuned_read(ugb_reading *answer, const uint8_t *s, size_t s_length, bool security_first)
{
    ugb_summary *summary = &answer->section.summary;
    security first;
    properties second;
    ugb_refusal refusal = judge(s, s_length, security_first, &first, &second);
    if (refusal.number != UGB_ACCEPTED) {
        zero(answer, sizeof *answer);
        answer->refusal = refusal;
        return;
    }
    const uint8_t *header = s + second.at;
    answer->refusal = refusal;
    summary->security_first = security_first;
    if (security_first)
        fill_security(&summary->security, &first, s, s + first.at[PROVIDER]);
    else
        zero(&summary->security, sizeof summary->security);
    fill_properties(summary, &second, header);
    fill_verdicts(summary, &first, header);
    answer->section.correlation_id = (ugb_part){second.at + 4, 20};
    answer->section.application_tag = number32(header + 28);
}
