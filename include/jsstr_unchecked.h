/* Calls of jsstr.h that test nothing, and settle nothing: where the condition of a call fails, anything may happen, as with a
   wrong index in C. The condition is that the agent is there and knows each string; and, but for concat and length, that
   each string is settled (jsstr_settle, jsstr_is_settled). Both forms serve one handle. They gain a tenth to a half of the
   time of a call (docs/MEASURES.md); of the others the test takes less. What has no status here always succeeds. */
#ifndef JSSTR_UNCHECKED_H
#define JSSTR_UNCHECKED_H
#include "jsstr.h"
#ifdef __cplusplus
extern "C" {
#endif

jsstr_answer jsstr_concat_unchecked(jsstr_agent *agent, jsstr_id a, jsstr_id b);
jsstr_answer jsstr_slice_unchecked(jsstr_agent *agent, jsstr_id s, uint32_t from, uint32_t to);
uint32_t jsstr_length_unchecked(jsstr_agent *agent, jsstr_id s);
uint16_t jsstr_unit_at_unchecked(jsstr_agent *agent, jsstr_id s, uint32_t place);
uint32_t jsstr_hash_unchecked(jsstr_agent *agent, jsstr_id s);
jsstr_words jsstr_window_unchecked(jsstr_agent *agent, jsstr_id s, uint32_t at, uint64_t *out, size_t room);
bool jsstr_equal_unchecked(jsstr_agent *agent, jsstr_id a, jsstr_id b);
jsstr_answer jsstr_intern_unchecked(jsstr_agent *agent, jsstr_id s);

#ifdef __cplusplus
}
#endif
#endif
