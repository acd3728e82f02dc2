/* An offline of memory block 1 by processor 0, and maps and unmaps by processors 1 and 2: the scenario
   of offline.json, call by call, with all that processors are answered. Three memory blocks of four
   pageblocks of one frame each; each processor's list holds one frame. */
#define FRAMES 12
#define NONE   255
#define NOFRAME 254
#define NOTHING 253
#define NOTFREE 200	/* and the frame */
#define DONE   252
#define CALLS  10

byte free[FRAMES];	/* the free frames of zone Normal, front first */
byte frees = FRAMES;
byte iso[4];		/* those that are isolated, front first */
byte isos = 0;
byte own[3] = NONE;	/* each processor's list */
byte at[10] = NONE;	/* the frame of each page: five of each owner */
bool going = false;
bool gone = false;
byte made = 0;		/* how many calls were made */
byte told[30] = 0;	/* what each processor was answered */

#define push_front(list, count, f) \
  i = count; do :: i > 0 -> list[i] = list[i - 1]; i-- :: else -> break od; \
  list[0] = f; count++
#define pop_front(list, count, f) \
  f = list[0]; count--; i = 0; \
  do :: i < count -> list[i] = list[i + 1]; i++ :: else -> break od; \
  list[count] = 0
inline give_back(f) {	/* to the free lists */
  if
  :: (going && f >= 4 && f < 8) -> push_front(iso, isos, f)
  :: else -> push_front(free, frees, f)
  fi
}
inline map(cpu, page, slot) {
  d_step {
    made++;
    if
    :: own[cpu] != NONE -> at[page] = own[cpu]; own[cpu] = NONE; told[slot] = DONE
    :: own[cpu] == NONE && frees > 0 -> pop_front(free, frees, f); at[page] = f; told[slot] = DONE
    :: else -> told[slot] = NOFRAME
    fi; f = 0; i = 0
  }
}
inline unmap(cpu, page, slot) {
  d_step {
    made++;
    if
    :: at[page] == NONE -> told[slot] = NOTHING
    :: else ->
       f = at[page]; at[page] = NONE; told[slot] = DONE;
       if
       :: (going && f >= 4 && f < 8) -> push_front(iso, isos, f)
       :: else ->
          if
          :: own[cpu] == NONE -> own[cpu] = f
          :: else -> g = own[cpu]; own[cpu] = f; give_back(g)
          fi
       fi
    fi; f = 0; g = 0; i = 0
  }
}
inline begin_off() {
  d_step {
    made++;
    going = true; told[0] = made + 1; f = 4;
    do
    :: f < 8 ->
       i = 0;
       do :: i < frees && free[i] != f -> i++ :: else -> break od;
       if
       :: i < frees ->
          frees--;
          do :: i < frees -> free[i] = free[i + 1]; i++ :: else -> break od;
          free[frees] = 0;
          iso[isos] = f; isos++
       :: else -> skip
       fi;
       f++
    :: else -> break
    od;
    f = 0; i = 0
  }
}
inline drainfor(cpu, slot) {
  d_step {
    made++;
    told[slot] = DONE;
    if
    :: own[cpu] != NONE -> g = own[cpu]; own[cpu] = NONE; give_back(g)
    :: else -> skip
    fi; g = 0; i = 0
  }
}
inline migrate(slot) {
  d_step {
    made++;
    f = 8; g = 0; i = 0;	/* the lowest mapped frame of the block */
    do
    :: i < 10 -> if :: at[i] != NONE && at[i] >= 4 && at[i] < f -> f = at[i]; g = i :: else -> skip fi; i++
    :: else -> break
    od;
    if
    :: f == 8 -> told[slot] = NOTHING
    :: f < 8 && frees == 0 -> told[slot] = NOFRAME
    :: else ->
       pop_front(free, frees, h); at[g] = h; push_front(iso, isos, f);
       told[slot] = f * 12 + h
    fi; f = 0; g = 0; h = 0; i = 0
  }
}
inline commit(slot) {
  d_step {
    made++;
    if
    :: isos == 4 -> told[slot] = DONE; gone = true; isos = 0; iso[0] = 0; iso[1] = 0; iso[2] = 0; iso[3] = 0
    :: else ->
       f = 4;
       do
       :: f < 8 ->
          i = 0; do :: i < isos && iso[i] != f -> i++ :: else -> break od;
          if :: i == isos -> break :: else -> f++ fi
       :: else -> break
       od;
       told[slot] = NOTFREE + f
    fi; f = 0; i = 0
  }
}

proctype offline() {
  byte f, g, h, i;
  begin_off(); drainfor(0, 1); drainfor(1, 2); drainfor(2, 3);
  migrate(4); migrate(5); migrate(6); migrate(7); commit(8);
  told[f] != 251	/* so that spin keeps the answers */
}
proctype worker(byte cpu) {
  byte f, g, i;
  map(cpu, cpu * 5 - 5, cpu * 10); map(cpu, cpu * 5 - 4, cpu * 10 + 1); map(cpu, cpu * 5 - 3, cpu * 10 + 2);
  unmap(cpu, cpu * 5 - 5, cpu * 10 + 3); map(cpu, cpu * 5 - 2, cpu * 10 + 4); unmap(cpu, cpu * 5 - 4, cpu * 10 + 5);
  map(cpu, cpu * 5 - 1, cpu * 10 + 6); unmap(cpu, cpu * 5 - 3, cpu * 10 + 7); map(cpu, cpu * 5 - 5, cpu * 10 + 8);
  unmap(cpu, cpu * 5 - 2, cpu * 10 + 9)
}
init {
  atomic {
    byte k = 0;
    do :: k < FRAMES -> free[k] = k; k++ :: else -> break od;
    k = 0;
    run offline(); run worker(1); run worker(2)
  }
}
