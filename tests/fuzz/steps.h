/* What each code of a step does. */
#ifndef STEPS_H
#define STEPS_H

#include "host.h"

/* sealing.c */
void make_or_begin(const struct step *step);
void seal_datagram(const struct step *step);
void seal_head(const struct step *step);
void seal_chunk(const struct step *step);
void seal_sip004_datagram(const struct step *step);
void begin_sip004_stream(const struct step *step);

/* opening.c */
void open_datagram(const struct step *step);
void open_request(const struct step *step);
void open_variable(const struct step *step);
void open_response(const struct step *step);
void open_chunk(const struct step *step);
void open_sip004_datagram(const struct step *step);

/* planning.c */
void plan_report(const struct step *step);
void check_plan_step(const struct step *step);

/* crafting.c: messages and words that the library does not make */
void craft_datagram_step(const struct step *step);
void craft_head_step(const struct step *step);
void craft_chunk_step(const struct step *step);
void patch_step(const struct step *step);
void clock_step(const struct step *step);
void set_word_step(const struct step *step);
void any_bytes_step(const struct step *step);
void fill_step(const struct step *step);

/* Puts bytes behind those of a line, if there is room. */
void append(struct message *line, struct span bytes);

#endif
