'use strict';
// Made by page/examples.
const EXAMPLES = {
 "dijkstra.gr": {
  "group": "Programs",
  "source": "// Shortest distances from a secret node to all nodes of a graph of n nodes, at most 8, by Dijkstra's algorithm.\n// weight[8 * u + v] is the length of the edge from u to v, or 1000000000 if there is none. Which node is next is\n// secret, so weight, distance and done are each stored in an oblivious bank.\npublic int n;\npublic int i;\npublic int round;\nsecret int from;\nsecret int weight[64];\nsecret int distance[8];\nsecret int done[8];\nsecret int best;\nsecret int next;\nsecret int way;\n\ni = 0;\nwhile (i < n) {\n    distance[i] = 1000000000;\n    done[i] = 0;\n    i = i + 1;\n}\ndistance[from] = 0;\nround = 0;\nwhile (round < n) {\n    best = 2000000000;\n    next = 0;\n    i = 0;\n    while (i < n) {\n        if (done[i] == 0) {\n            if (distance[i] < best) {\n                best = distance[i];\n                next = i;\n            }\n        }\n        i = i + 1;\n    }\n    done[next] = 1;\n    i = 0;\n    while (i < n) {\n        way = distance[next] + weight[8 * next + i];\n        if (way < distance[i]) {\n            distance[i] = way;\n        }\n        i = i + 1;\n    }\n    round = round + 1;\n}\n",
  "one": "{\"n\":8,\"from\":3,\"weight\":[0,5,8,19,10,14,1000000000,1000000000,5,0,1000000000,1000000000,1000000000,1000000000,18,13,16,1000000000,0,3,1000000000,1000000000,20,1,1000000000,1000000000,1000000000,0,1000000000,7,1000000000,9,1000000000,1000000000,1000000000,16,0,1000000000,1000000000,1000000000,4,1000000000,1000000000,1000000000,1000000000,0,1000000000,17,18,1000000000,1000000000,3,1000000000,12,0,1000000000,8,1000000000,1000000000,8,1000000000,1000000000,1000000000,0]}",
  "two": "{\"n\":8,\"from\":3,\"weight\":[0,1000000000,8,14,1000000000,1000000000,1000000000,3,1000000000,0,18,1000000000,1000000000,17,1000000000,1000000000,8,1000000000,0,9,6,5,1000000000,1000000000,1000000000,1000000000,1000000000,0,1000000000,1000000000,1000000000,9,6,1000000000,1,1000000000,0,1000000000,8,4,1000000000,18,1000000000,1000000000,1000000000,0,8,1000000000,1000000000,6,10,1000000000,1000000000,15,0,1000000000,12,1000000000,1000000000,1,1000000000,1000000000,16,0]}"
 },
 "findmax.gr": {
  "group": "Programs",
  "source": "// Finds the greatest of the first n words of a, and the index where it first occurs.\n// The branch is on secrets: both arms show the same events. a is read only at public indexes: it is in encrypted memory.\npublic int n;\npublic int i;\nsecret int a[32];\nsecret int best;\nsecret int at;\n\nbest = a[0];\nat = 0;\ni = 1;\nwhile (i < n) {\n    if (a[i] > best) {\n        best = a[i];\n        at = i;\n    }\n    i = i + 1;\n}\n",
  "one": "{\"n\":10,\"a\":[-882,863,39,-561,-924,-824,-112,-144,-857,-508,0,0,0,0,0,0,0,0,0,0,0,0,0,0,0,0,0,0,0,0,0,0]}",
  "two": "{\"n\":10,\"a\":[640,937,989,478,-190,-52,-178,522,939,-827,0,0,0,0,0,0,0,0,0,0,0,0,0,0,0,0,0,0,0,0,0,0]}"
 },
 "findmax_read.gr": {
  "group": "Programs",
  "source": "// Finds the greatest of the first n words of a, as findmax.gr does, but faster: the element is read into a scalar\n// before the branch on a secret, so that neither arm loads a block.\npublic int n;\npublic int i;\nsecret int a[32];\nsecret int best;\nsecret int at;\nsecret int word;\n\nbest = a[0];\nat = 0;\ni = 1;\nwhile (i < n) {\n    word = a[i];\n    if (word > best) {\n        best = word;\n        at = i;\n    }\n    i = i + 1;\n}\n",
  "one": "{\"n\":10,\"a\":[-882,863,39,-561,-924,-824,-112,-144,-857,-508,0,0,0,0,0,0,0,0,0,0,0,0,0,0,0,0,0,0,0,0,0,0]}",
  "two": "{\"n\":10,\"a\":[640,937,989,478,-190,-52,-178,522,939,-827,0,0,0,0,0,0,0,0,0,0,0,0,0,0,0,0,0,0,0,0,0,0]}"
 },
 "heappop.gr": {
  "group": "Programs",
  "source": "// Removes the least word from a heap of n words.\n// The way down depends on secrets, so h is stored in an oblivious bank. The number of iterations depends only on n.\npublic int n;\npublic int level;\nsecret int h[64];\nsecret int least;\nsecret int at;\nsecret int child;\nsecret int t;\n\nleast = h[0];\nn = n - 1;\nh[0] = h[n];\nat = 0;\nlevel = 1;\nwhile (level <= n) {\n    child = 2 * at + 1;\n    if (child < n) {\n        if (child + 1 < n) {\n            if (h[child + 1] < h[child]) {\n                child = child + 1;\n            }\n        }\n        if (h[child] < h[at]) {\n            t = h[at];\n            h[at] = h[child];\n            h[child] = t;\n        }\n        at = child;\n    }\n    level = level * 2;\n}\n",
  "one": "{\"n\":13,\"h\":[-33,-5,-21,3,1,-15,-15,40,20,5,37,-2,20,0,0,0,0,0,0,0,0,0,0,0,0,0,0,0,0,0,0,0,0,0,0,0,0,0,0,0,0,0,0,0,0,0,0,0,0,0,0,0,0,0,0,0,0,0,0,0,0,0,0,0]}",
  "two": "{\"n\":13,\"h\":[-38,-33,-32,9,-22,-31,-18,34,41,-4,45,32,0,0,0,0,0,0,0,0,0,0,0,0,0,0,0,0,0,0,0,0,0,0,0,0,0,0,0,0,0,0,0,0,0,0,0,0,0,0,0,0,0,0,0,0,0,0,0,0,0,0,0,0]}"
 },
 "heappush.gr": {
  "group": "Programs",
  "source": "// Adds x to a heap of n words, the least of them first.\n// The indexes on the way up depend only on n, so h is stored in encrypted memory; whether words are swapped is secret.\npublic int n;\npublic int i;\npublic int parent;\nsecret int h[64];\nsecret int x;\nsecret int t;\n\nh[n] = x;\ni = n;\nwhile (i > 0) {\n    parent = (i - 1) / 2;\n    if (h[i] < h[parent]) {\n        t = h[parent];\n        h[parent] = h[i];\n        h[i] = t;\n    }\n    i = parent;\n}\nn = n + 1;\n",
  "one": "{\"n\":13,\"h\":[-33,-5,-21,3,1,-15,-15,40,20,5,37,-2,20,0,0,0,0,0,0,0,0,0,0,0,0,0,0,0,0,0,0,0,0,0,0,0,0,0,0,0,0,0,0,0,0,0,0,0,0,0,0,0,0,0,0,0,0,0,0,0,0,0,0,0],\"x\":-51}",
  "two": "{\"n\":13,\"h\":[-38,-33,-32,9,-22,-31,-18,34,41,-4,45,32,0,0,0,0,0,0,0,0,0,0,0,0,0,0,0,0,0,0,0,0,0,0,0,0,0,0,0,0,0,0,0,0,0,0,0,0,0,0,0,0,0,0,0,0,0,0,0,0,0,0,0,0],\"x\":49}"
 },
 "histogram.gr": {
  "group": "Programs",
  "source": "// Counts how often each of the numbers 0 to 15 occurs among the first n words of a.\n// a is read only at public indexes, so it is stored in encrypted memory. counts is indexed by secrets, so it is stored\n// in an oblivious bank.\npublic int n;\npublic int i;\nsecret int a[64];\nsecret int counts[16];\n\ni = 0;\nwhile (i < 16) {\n    counts[i] = 0;\n    i = i + 1;\n}\ni = 0;\nwhile (i < n) {\n    counts[a[i]] = counts[a[i]] + 1;\n    i = i + 1;\n}\n",
  "one": "{\"n\":40,\"a\":[2,13,1,3,7,1,12,1,7,1,4,9,13,4,3,9,5,3,6,11,3,2,1,6,15,13,10,14,14,11,9,7,5,7,2,9,15,10,14,9,0,0,0,0,0,0,0,0,0,0,0,0,0,0,0,0,0,0,0,0,0,0,0,0]}",
  "two": "{\"n\":40,\"a\":[5,5,4,0,4,14,4,15,11,4,4,0,0,3,4,13,6,6,0,8,6,9,7,10,8,13,4,1,11,14,13,4,4,0,14,5,0,4,5,4,0,0,0,0,0,0,0,0,0,0,0,0,0,0,0,0,0,0,0,0,0,0,0,0]}"
 },
 "matrix.gr": {
  "group": "Programs",
  "source": "// The product of two matrices of n rows and n columns, n at most 8: row i of a starts at a[8 * i].\n// All indexes are public, so a, b and c are stored in encrypted memory.\npublic int n;\npublic int i;\npublic int j;\npublic int k;\nsecret int a[64];\nsecret int b[64];\nsecret int c[64];\nsecret int total;\n\ni = 0;\nwhile (i < n) {\n    j = 0;\n    while (j < n) {\n        total = 0;\n        k = 0;\n        while (k < n) {\n            total = total + a[8 * i + k] * b[8 * k + j];\n            k = k + 1;\n        }\n        c[8 * i + j] = total;\n        j = j + 1;\n    }\n    i = i + 1;\n}\n",
  "one": "{\"n\":4,\"a\":[-2,-2,7,2,0,0,0,0,-9,6,-3,5,0,0,0,0,2,-2,-2,-3,0,0,0,0,-3,-9,2,-6,0,0,0,0,0,0,0,0,0,0,0,0,0,0,0,0,0,0,0,0,0,0,0,0,0,0,0,0,0,0,0,0,0,0,0,0],\"b\":[3,-3,6,-9,0,0,0,0,-1,-1,2,2,0,0,0,0,-7,-6,6,1,0,0,0,0,6,6,-7,3,0,0,0,0,0,0,0,0,0,0,0,0,0,0,0,0,0,0,0,0,0,0,0,0,0,0,0,0,0,0,0,0,0,0,0,0]}",
  "two": "{\"n\":4,\"a\":[5,4,8,7,0,0,0,0,-3,1,-5,2,0,0,0,0,-5,-7,4,-8,0,0,0,0,3,0,0,5,0,0,0,0,0,0,0,0,0,0,0,0,0,0,0,0,0,0,0,0,0,0,0,0,0,0,0,0,0,0,0,0,0,0,0,0],\"b\":[-6,6,3,0,0,0,0,0,-2,-3,3,-8,0,0,0,0,-9,-1,-4,-7,0,0,0,0,7,-2,-8,-4,0,0,0,0,0,0,0,0,0,0,0,0,0,0,0,0,0,0,0,0,0,0,0,0,0,0,0,0,0,0,0,0,0,0,0,0]}"
 },
 "permutation.gr": {
  "group": "Programs",
  "source": "// Inverts a permutation of 0 to n - 1: if p maps i to p[i], inverse maps p[i] to i.\n// p is read only at public indexes, so it is stored in encrypted memory; inverse is stored in an oblivious bank.\npublic int n;\npublic int i;\nsecret int p[16];\nsecret int inverse[16];\n\ni = 0;\nwhile (i < n) {\n    inverse[p[i]] = i;\n    i = i + 1;\n}\n",
  "one": "{\"n\":12,\"p\":[5,0,4,3,7,2,11,6,8,10,1,9,0,0,0,0]}",
  "two": "{\"n\":12,\"p\":[10,6,11,3,4,5,2,0,8,1,9,7,0,0,0,0]}"
 },
 "search.gr": {
  "group": "Programs",
  "source": "// Finds the first word of a sorted array that isn't below a key, by binary search; 64 if all are below it.\n// Which words are read depends on secrets, so a is stored in an oblivious bank. The number of iterations is fixed.\npublic int step;\nsecret int a[64];\nsecret int key;\nsecret int at;\n\nat = 0;\nstep = 32;\nwhile (step > 0) {\n    if (a[at + step - 1] < key) {\n        at = at + step;\n    }\n    step = step / 2;\n}\nif (a[at] < key) {\n    at = at + 1;\n}\n",
  "one": "{\"a\":[11,30,31,33,35,39,41,47,59,66,85,86,111,126,138,145,147,158,160,174,177,179,181,197,200,203,228,233,236,242,252,254,254,285,293,295,296,304,312,331,340,342,342,348,355,356,359,366,374,378,391,393,404,408,418,420,430,446,448,454,469,481,483,492],\"key\":229}",
  "two": "{\"a\":[14,21,32,37,37,50,62,62,70,97,102,103,108,123,126,127,132,141,141,155,161,166,200,213,219,226,226,229,231,231,244,258,259,259,260,262,267,273,286,287,310,313,342,343,354,357,389,395,397,401,413,430,448,448,457,457,459,467,472,475,482,482,482,498],\"key\":501}"
 },
 "sum.gr": {
  "group": "Programs",
  "source": "// Adds the first n words of a. The number n is public, and the words are secret.\n// a is read only at public indexes, so it is stored in encrypted memory; no array needs an oblivious bank.\npublic int n;\npublic int i;\nsecret int a[32];\nsecret int s;\n\ni = 0;\ns = 0;\nwhile (i < n) {\n    s = s + a[i];\n    i = i + 1;\n}\n",
  "one": "{\"n\":10,\"a\":[-18,-62,1,66,-88,-82,37,-76,-7,49,0,0,0,0,0,0,0,0,0,0,0,0,0,0,0,0,0,0,0,0,0,0]}",
  "two": "{\"n\":10,\"a\":[100,82,92,-49,22,-55,11,62,-15,-78,0,0,0,0,0,0,0,0,0,0,0,0,0,0,0,0,0,0,0,0,0,0]}"
 },
 "permutation_public.gr": {
  "group": "A leak beside its fix",
  "source": "// permutation.gr with each `secret` made `public`: the accesses follow the words of p, so two inputs have\n// different traces. Compare it with permutation.gr, in which p is secret.\npublic int n;\npublic int i;\npublic int p[16];\npublic int inverse[16];\n\ni = 0;\nwhile (i < n) {\n    inverse[p[i]] = i;\n    i = i + 1;\n}\n",
  "one": "{\"n\":12,\"p\":[5,0,4,3,7,2,11,6,8,10,1,9,0,0,0,0]}",
  "two": "{\"n\":12,\"p\":[10,6,11,3,4,5,2,0,8,1,9,7,0,0,0,0]}"
 },
 "unbalanced.asm": {
  "group": "A leak beside its fix",
  "source": "; As choose.asm, but the way that isn't taken is two cycles shorter: refused at the branch, with reason 10.\n.object 1 3 1 70 2 3\n.bank 1 634\n.bank 1 662\n.symbol m secret scalar 1 0 0 1\n.symbol s secret scalar 1 0 1 1\n\n        li r1 1\n        ldb 0 E r0\n        ldw r2 0 r0             ; m\n        ldw r3 0 r1             ; s\n        br gt r3 r2 -> greater\n        stw r2 0 r0\n        jmp -> behind\ngreater:\n        stw r3 0 r0\n        nop\n        nop\n        nop\nbehind:\n        stb 0\n        halt\n",
  "one": "{}",
  "two": "{}"
 },
 "choose.asm": {
  "group": "A leak beside its fix",
  "source": "; The secret word m becomes the greater of the secret words m and s, which stand in block 0 of encrypted memory. Whichever\n; way the branch goes, the bus shows the same.\n.object 1 3 1 70 2 3\n.bank 1 634\n.bank 1 662\n.symbol m secret scalar 1 0 0 1\n.symbol s secret scalar 1 0 1 1\n\n        li r1 1\n        ldb 0 E r0\n        ldw r2 0 r0             ; m\n        ldw r3 0 r1             ; s\n        br gt r3 r2 -> greater\n        nop                     ; a branch that is taken takes two cycles more\n        nop\n        stw r2 0 r0\n        jmp -> behind\ngreater:\n        stw r3 0 r0\n        nop                     ; and the jump of the other way takes three\n        nop\n        nop\nbehind:\n        stb 0\n        halt\n",
  "one": "{\"m\":3,\"s\":5}",
  "two": "{\"m\":9223372036854775807,\"s\":-1}"
 },
 "bare.asm": {
  "group": "Assembly",
  "source": "; The loop of sum.asm, written without notes: the check refuses it, since it knows nothing where the jumps arrive.\n; `infer` writes the object with the notes that it needs.\n.object 1 3 1 70 2 3\n.bank 1 634\n.bank 5 662\n.symbol n public scalar 0 0 0 1\n.symbol s secret scalar 1 0 0 1\n.symbol a secret array 1 1 0 32\n\n        li r2 1\n        li r3 8\n        ldb 2 D r0\n        ldw r4 2 r0             ; n\n        ldb 0 E r0              ; the block of s stays in slot 0\nnext:\n        br ge r1 r4 -> done\n        div r7 r1 r3\n        add r7 r7 r2            ; the block of a[r1]\n        ldb 1 E r7\n        ldw r5 1 r1             ; its word: r1 modulo 8\n        ldw r6 0 r0\n        add r6 r6 r5\n        stw r6 0 r0\n        add r1 r1 r2\n        jmp -> next\ndone:\n        stb 0\n        halt\n",
  "one": "{}",
  "two": "{}"
 },
 "counts.asm": {
  "group": "Assembly",
  "source": "; Counts eight secret places: adds one to the word of a table at each. The table lies in an oblivious bank of eight blocks\n; of eight words, so the bus shows that it was read and written and not where. What an access shows of the bank's tree is\n; the path of a leaf, and the block gets another leaf by a random word.\n.object 1 3 1 70 2 3\n.bank 1 634\n.bank 1 662\n.bank 8 4262\n.symbol place secret array 1 0 0 8\n.symbol count secret array 2 0 0 64\n\n        li r6 1\n        li r7 8\n        li r8 3\n        ldb 0 E r0\n        li r1 0                 ; the number of the place\nnext:                           ; r2, r3 and r4 may be secret, and slot 0 holds encrypted memory\n        .note 0000001c 1 - - - - - - -\n        br ge r1 r7 -> done\n        ldw r2 0 r1             ; the place\n        shr r3 r2 r8            ; the block's number\n        ldb 6 O2 r3\n        ldw r4 6 r2             ; the word of the block\n        add r4 r4 r6\n        stw r4 6 r2\n        stb 6\n        add r1 r1 r6\n        jmp -> next\ndone:\n        .note 0000001c 1 - - - - - - -\n        halt\n",
  "one": "{\"place\":[0,9,18,27,36,45,54,63]}",
  "two": "{\"place\":[7,7,7,7,7,7,7,7]}"
 },
 "dot.asm": {
  "group": "Assembly",
  "source": "; The product of two secret vectors of eight words: the sum of the products, word by word.\n.object 1 3 1 70 2 3\n.bank 1 634\n.bank 3 662\n.symbol product secret scalar 1 0 0 1\n.symbol a secret array 1 1 0 8\n.symbol b secret array 1 2 0 8\n\n        li r1 1\n        li r2 2\n        li r3 8\n        ldb 0 E r0\n        ldb 1 E r1              ; a\n        ldb 2 E r2              ; b\n        li r4 0                 ; the place\n        li r5 0                 ; the sum\nnext:                           ; r5 to r8 may be secret, and the slots 0 to 2 hold encrypted memory\n        .note 000001e0 1 1 1 - - - - -\n        br ge r4 r3 -> done\n        ldw r6 1 r4\n        ldw r7 2 r4\n        mul r8 r6 r7\n        add r5 r5 r8\n        add r4 r4 r1\n        jmp -> next\ndone:\n        .note 000001e0 1 1 1 - - - - -\n        stw r5 0 r0\n        stb 0\n        halt\n",
  "one": "{\"a\":[1,2,3,4,5,6,7,8],\"b\":[8,7,6,5,4,3,2,1]}",
  "two": "{\"a\":[-1,0,9,0,0,0,0,2],\"b\":[5,5,5,5,5,5,5,-5]}"
 },
 "first.asm": {
  "group": "Assembly",
  "source": "; Reads a block of plain memory.\n.object 1 3 1 70 2 3\n.bank 4 634\n.bank 4 662\nli r1 0\nldb 0 D r1\nhalt\n",
  "one": "{}",
  "two": "{}"
 },
 "greatest.asm": {
  "group": "Assembly",
  "source": "; The greatest of eight secret words. The branch in the loop is on secrets: both ways take the same cycles.\n.object 1 3 1 70 2 3\n.bank 1 634\n.bank 2 662\n.symbol best secret scalar 1 0 0 1\n.symbol a secret array 1 1 0 8\n\n        li r1 1\n        li r2 8\n        ldb 0 E r0\n        ldb 1 E r1              ; a\n        ldw r3 1 r0             ; the greatest so far\n        li r4 1                 ; the place\nnext:                           ; r3 and r5 may be secret, and the slots 0 and 1 hold encrypted memory\n        .note 00000028 1 1 - - - - - -\n        br ge r4 r2 -> done\n        ldw r5 1 r4\n        br gt r5 r3 -> greater\n        nop\n        nop\n        add r3 r3 r0\n        jmp -> behind\ngreater:\n        add r3 r5 r0\n        nop\n        nop\n        nop\nbehind:\n        add r4 r4 r1\n        jmp -> next\ndone:\n        .note 00000028 1 1 - - - - - -\n        stw r3 0 r0\n        stb 0\n        halt\n",
  "one": "{\"a\":[3,9,-2,7,9,0,1,4]}",
  "two": "{\"a\":[-8,-7,-6,-5,-4,-3,-2,-1]}"
 },
 "leaks.asm": {
  "group": "Assembly",
  "source": "; Copies a word of encrypted memory to plain memory, where it would be seen: refused at place 4.\n.object 1 3 1 70 2 3\n.bank 4 634\n.bank 4 662\nli r1 0\nldb 1 E r1\nldw r2 1 r1\nldb 0 D r1\nstw r2 0 r1\nhalt\n",
  "one": "{}",
  "two": "{}"
 },
 "lookup.asm": {
  "group": "Assembly",
  "source": "; Looks up the word of a table at a secret index. The table lies in an oblivious bank, so the bus shows that it was read\n; and not where. A block has eight words: the index over 8 is the block's number, and the index the word's number within\n; it, modulo 8. Both wrap, so with 32 words in four blocks the index -1 names the last word: shr keeps the sign, the\n; block is -1 modulo 4, and the word is -1 modulo 8.\n.object 1 3 1 70 2 3\n.bank 1 634\n.bank 1 662\n.bank 4 4262\n.symbol at secret scalar 1 0 0 1\n.symbol found secret scalar 1 0 1 1\n.symbol table secret array 2 0 0 32\n\n        li r1 3\n        ldb 0 E r0\n        ldw r2 0 r0             ; at\n        shr r3 r2 r1            ; the block's number\n        ldb 1 O2 r3\n        ldw r4 1 r2             ; the word\n        li r5 1\n        stw r4 0 r5             ; found\n        stb 0\n        halt\n",
  "one": "{\"at\":-1,\"table\":[0,1,2,3,4,5,6,7,8,9,10,11,12,13,14,15,16,17,18,19,20,21,22,23,24,25,26,27,28,29,30,31]}",
  "two": "{\"at\":9,\"table\":[0,10,20,30,40,50,60,70,80,90,100,110,120,130,140,150,160,170,180,190,200,210,220,230,240,250,260,270,280,290,300,310]}"
 },
 "smallest.asm": {
  "group": "Assembly",
  "source": "; One halt, in the smallest memory that an object may have.\n.object 1 3 1 70 2 3\n.bank 1 634\n.bank 1 662\nhalt\n",
  "one": "{}",
  "two": "{}"
 },
 "sum.asm": {
  "group": "Assembly",
  "source": "; Adds the first n words of the secret array a to the secret word s. How often the loop turns is public, what it adds\n; isn't. A block has eight words: s stands in block 0 of encrypted memory, a from block 1 on.\n.object 1 3 1 70 2 3\n.bank 1 634\n.bank 5 662\n.symbol n public scalar 0 0 0 1\n.symbol s secret scalar 1 0 0 1\n.symbol a secret array 1 1 0 32\n\n        li r2 1\n        li r3 8\n        ldb 2 D r0\n        ldw r4 2 r0             ; n\n        ldb 0 E r0              ; the block of s stays in slot 0\nnext:                           ; r5 and r6 may be secret here, and slot 0 holds encrypted memory\n        .note 00000060 1 - - - - - - -\n        br ge r1 r4 -> done\n        div r7 r1 r3\n        add r7 r7 r2            ; the block of a[r1]\n        ldb 1 E r7\n        ldw r5 1 r1             ; its word: r1 modulo 8\n        ldw r6 0 r0\n        add r6 r6 r5\n        stw r6 0 r0\n        add r1 r1 r2\n        jmp -> next\ndone:\n        .note 00000060 1 - - - - - - -\n        stb 0\n        halt\n",
  "one": "{\"n\":4,\"a\":[10,20,30,40,0,0,0,0,0,0,0,0,0,0,0,0,0,0,0,0,0,0,0,0,0,0,0,0,0,0,0,0],\"s\":200}",
  "two": "{\"n\":4,\"a\":[-1,2,-3,4,5,6,7,8,0,0,0,0,0,0,0,0,0,0,0,0,0,0,0,0,0,0,0,0,0,0,0,9]}"
 },
 "turn-1.asm": {
  "group": "Assembly",
  "source": "; One of two machines that share a bus, each with a window in each 2000 cycles: this one starts its accesses in the first\n; 300, the other one in those from 1000 on (turn-2.asm). An access takes at most 662 cycles, so one that starts at 299 has\n; ended before the other's window opens: no two accesses meet, whatever the two machines do.\n.object 2 3 1 70 2 3 2000 0 300\n.bank 4 634\n.bank 4 662\n.symbol words secret array 1 0 0 16\n.symbol sum secret scalar 1 2 0 1\n        li r1 1\n        ldb 0 E r0              ; at 0 + 1: the window is open\n        ldb 1 E r1              ; waits for 2000\n        li r2 2\n        ldb 2 E r2              ; waits for 4000\n        ldw r3 0 r0\n        ldw r4 1 r0\n        add r3 r3 r4\n        stw r3 2 r0             ; sum = words[0] + words[8]\n        stb 2                   ; waits for 6000\n        halt\n",
  "one": "{}",
  "two": "{}"
 },
 "turn-2.asm": {
  "group": "Assembly",
  "source": "; The other of the two machines of turn-1.asm: its accesses start in the 300 cycles from 1000 on of each 2000.\n.object 2 3 1 70 2 3 2000 1000 1300\n.bank 4 634\n.bank 4 662\n.symbol words secret array 1 0 0 16\n.symbol sum secret scalar 1 2 0 1\n        li r1 1\n        ldb 0 E r0              ; waits for 1000\n        ldb 1 E r1              ; waits for 3000\n        li r2 2\n        ldb 2 E r2              ; waits for 5000\n        ldw r3 0 r0\n        ldw r4 1 r0\n        add r3 r3 r4\n        stw r3 2 r0             ; sum = words[0] + words[8]\n        stb 2                   ; waits for 7000\n        halt\n",
  "one": "{}",
  "two": "{}"
 },
 "window.asm": {
  "group": "Assembly",
  "source": "; Reads a block of plain memory, which is open for the first cycle of each ten alone: the load comes at cycle 1 and waits\n; for cycle 10.\n.object 2 3 1 70 2 3 10 0 1\n.bank 4 634\n.bank 4 662\nli r1 0\nldb 0 D r1\nhalt\n",
  "one": "{}",
  "two": "{}"
 }
};
const USAGES = {
 "compile": "compile SRC OUT [--fast] [--block-log W] [--window P:O:C] [--procs]",
 "check": "check OBJ",
 "run": "run OBJ INPUT OUT [--cycles N] [--seed S] [--recursive]",
 "trace": "trace OBJ INPUT [--cycles N] [--seed S] [--paths] [--recursive]",
 "diff": "diff OBJ INPUT INPUT [--cycles N] [--seed S] [--paths] [--recursive]",
 "eval": "eval SRC INPUT OUT [--turns N] [--procs]",
 "test": "test SRC CASES [--fast] [--block-log W] [--window P:O:C] [--procs] [--cycles N]",
 "layout": "layout SRC [--fast] [--block-log W] [--window P:O:C] [--procs]",
 "listing": "listing SRC [--fast] [--block-log W] [--window P:O:C] [--procs]",
 "profile": "profile SRC INPUT [--fast] [--block-log W] [--window P:O:C] [--procs] [--cycles N]",
 "count": "count OBJ INPUT [--cycles N] [--seed S] [--paths] [--recursive]",
 "expand": "expand SRC",
 "asm": "asm TEXT OUT",
 "dis": "dis OBJ OUT",
 "infer": "infer OBJ OUT",
 "bus": "bus OBJ INPUT .. [--cycles N] [--seed S]",
 "sample": "sample ITEMS OUT [--fast] [--seed S]"
};
