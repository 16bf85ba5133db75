// What the program does with a deck.
#pragma once

#include "work.h"

void print_versions();
void time_deck(const Deck &deck, int rounds);
void count_whole(const Deck &deck);
void count_form(const Deck &deck);
void measure_stack(const Deck &deck);
