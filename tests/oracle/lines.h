/* Lines to offer to a register, house currencies to open it with, and registers: sound ones, and near misses of every rule. */
#ifndef LINES_H
#define LINES_H

#include "decks.h"
#include "oracle.h"

enum { LINE_ROOM = 256 };
struct line { size_t length; uint8_t bytes[LINE_ROOM]; };

/* Texts, parted by commas; four of them if the currency is NULL. */
void make_line(struct line *line, const char *contract, const char *grain, const char *tonnes, const char *price, const char *currency);

/* Puts a line into the slot of a place, with zeros behind it. */
void put_line(uint8_t buffer[REGISTER_SIZE], uint64_t place, const struct line *line);

/* A register of random lines that keeps the rules, opened or not: mostly of few lines, sometimes of 254 to 256. Their contracts may be much alike,
   and so may their currencies. */
void random_register(struct draws *d, int opened, uint8_t buffer[REGISTER_SIZE]);

/* A line to offer to this register, of four fields or five: a new one, one with a contract that is held or near one held, or one of bad form. */
void random_line(struct draws *d, const uint8_t buffer[REGISTER_SIZE], struct line *line);

/* A house currency, as the line's bytes: mostly a good one. */
void random_house(struct draws *d, struct line *house);

/* A place about the register's lines, or one that means another when it is cut to fewer bits. */
uint64_t random_place(struct draws *d, const uint8_t buffer[REGISTER_SIZE]);

/* Changes a register that keeps the rules so that it mostly breaks one: its header, its lines or how many fields they have. Some changes make another
   sound one. */
void damage_register(struct draws *d, uint8_t buffer[REGISTER_SIZE]);

#endif
