/* sorts.h: five sorts of an array of pointers, for one order. Whoever includes it says which:
 *
 *   SORT(name)          the name of a function for this order
 *   BEFORE(one, other)  whether a record stands before another
 */

/* Each record moves down until none before it is greater. */
static OWN_FUNCTION void SORT(insert)(const record **all, uint32_t count)
{
    uint32_t i;

    for (i = 1; i < count; i++) {
        const record *it = all[i];
        uint32_t at = i;

        for (; at > 0 && BEFORE(it, all[at - 1]); at--)
            all[at] = all[at - 1];
        all[at] = it;
    }
}

/* The same over distances that become smaller. */
static OWN_FUNCTION void SORT(shell)(const record **all, uint32_t count)
{
    uint32_t gap = 1;
    uint32_t i;

    while (gap < count / 3)
        gap = 3 * gap + 1;
    for (; gap > 0; gap /= 3) {
        for (i = gap; i < count; i++) {
            const record *it = all[i];
            uint32_t at = i;

            for (; at >= gap && BEFORE(it, all[at - gap]); at -= gap)
                all[at] = all[at - gap];
            all[at] = it;
        }
    }
}

/* A record sinks in the heap below `at`. */
static inline void SORT(sink)(const record **all, uint32_t at, uint32_t count)
{
    const record *it = all[at];

    for (;;) {
        uint32_t child = 2 * at + 1;

        if (child >= count)
            break;
        if (child + 1 < count && BEFORE(all[child], all[child + 1]))
            child++;
        if (!BEFORE(it, all[child]))
            break;
        all[at] = all[child];
        at = child;
    }
    all[at] = it;
}

static OWN_FUNCTION void SORT(heap)(const record **all, uint32_t count)
{
    uint32_t at;

    for (at = count / 2; at-- > 0;)
        SORT(sink)(all, at, count);
    for (at = count; at-- > 1;) {
        const record *last = all[at];

        all[at] = all[0];
        all[0] = last;
        SORT(sink)(all, 0, at);
    }
}

/* Parts by the middle one of three, the smaller part by a call of itself; short ones are inserted. */
static OWN_FUNCTION void SORT(quick)(const record **all, uint32_t count)
{
    while (count > 12) {
        const record *one = all[0], *middle = all[count / 2], *last = all[count - 1];
        const record *pivot = BEFORE(one, middle)
            ? (BEFORE(middle, last) ? middle : BEFORE(one, last) ? last : one)
            : (BEFORE(one, last) ? one : BEFORE(middle, last) ? last : middle);
        uint32_t low = 0, high = count - 1;

        for (;;) {
            const record *kept;

            while (BEFORE(all[low], pivot))
                low++;
            while (BEFORE(pivot, all[high]))
                high--;
            if (low >= high)
                break;
            kept = all[low];
            all[low++] = all[high];
            all[high--] = kept;
        }
        if (low < count - low) {
            SORT(quick)(all, low);
            all += low;
            count -= low;
        } else {
            SORT(quick)(all + low, count - low);
            count = low;
        }
    }
    SORT(insert)(all, count);
}

/* Two halves, each sorted, become one by way of another array. Equal records keep their order. */
static OWN_FUNCTION void SORT(merge)(const record **all, const record **other, uint32_t count)
{
    uint32_t half = count / 2;
    uint32_t left = 0, right = half, to = 0;

    if (count < 2)
        return;
    SORT(merge)(all, other, half);
    SORT(merge)(all + half, other, count - half);
    while (left < half && right < count)
        other[to++] = BEFORE(all[right], all[left]) ? all[right++] : all[left++];
    while (left < half)
        other[to++] = all[left++];
    for (left = 0; left < to; left++)
        all[left] = other[left];
}

/* Sorts by each way in turn, and says whether all agree in the order. */
static OWN_FUNCTION int SORT(all_ways)(uint32_t count, uint32_t *sum)
{
    uint32_t i;

    SORT(merge)(shuffled_pointers(count), spare, count);
    for (i = 1; i < count; i++) {
        if (BEFORE(pointers[i], pointers[i - 1]))
            return 0;
    }
    for (i = 0; i < count; i++) {
        wanted[i] = pointers[i];
        *sum = sum_with(*sum, wanted[i]->number);
    }
    SORT(quick)(shuffled_pointers(count), count);
    if (!is_wanted(count))
        return 0;
    SORT(heap)(shuffled_pointers(count), count);
    if (!is_wanted(count))
        return 0;
    SORT(shell)(shuffled_pointers(count), count);
    return is_wanted(count);
}

#undef SORT
#undef BEFORE
