/* The tests of each subject, for the table in main.c. */
#ifndef SUBJECTS_H
#define SUBJECTS_H

#include <stdbool.h>
#include <stdint.h>

/* Cases worked by hand, with edges and corners. */
void examples_by_hand(void);
void copies_by_hand(void);
void damage_by_hand(void);
void reach_by_hand(void);
void payouts_by_hand(void);
void quotients_by_hand(void);
void columns_by_hand(void);
void duties_by_hand(void);
void desk_by_hand(void);

/* All short texts over a small set of bytes. Says how many were accepted. */
void all_short_texts(void);

/* The random tests of one round. */
void random_history(uint64_t seed);
void random_reaches(uint64_t seed);
void random_payouts(uint64_t seed);
void random_quotients(uint64_t seed);
void random_columns(uint64_t seed);
void random_duties(uint64_t seed);

/* How often each was met that must be, in the directed cases or in the rounds. False: fewer
 * than `least` times. */
bool counts_of_histories(bool of_histories, unsigned least);
bool counts_of_prints(bool of_histories, unsigned least);
bool counts_of_reaches(bool of_histories, unsigned least);
bool counts_of_payouts(bool of_histories, unsigned least);
bool counts_of_quotients(bool of_histories, unsigned least);
bool counts_of_columns(bool of_histories, unsigned least);
bool counts_of_duties(bool of_histories, unsigned least);

#endif
