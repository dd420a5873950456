/* A plain evaluator in C, the yardstick of bench/eval: it reads a run and qrels whole, cuts fields in
 * place, sorts by topic and document, joins the grades, sorts by topic and score, and prints the 17
 * lines of a summary. Scores and values are doubles. */
#include <fcntl.h>
#include <stdio.h>
#include <stdlib.h>
#include <string.h>
#include <sys/stat.h>
#include <unistd.h>

typedef struct {
    char *topic, *doc;
    double score;
    int grade;
} Line;

enum { CUTOFFS = 9 };
static const long cutoffs[CUTOFFS] = {5, 10, 15, 20, 30, 100, 200, 500, 1000};

/* Counts and measures of a topic, and their sums over topics. */
typedef struct {
    long topics, retrieved, relevant, relevant_retrieved;
    double map, r_precision, bpref, reciprocal, at[CUTOFFS];
} Scores;

static char *read_whole(const char *name) {
    struct stat about;
    int file = open(name, O_RDONLY);
    if (file < 0 || fstat(file, &about)) {
        perror(name);
        exit(4);
    }
    char *text = malloc(about.st_size + 1);
    size_t length = 0;
    ssize_t count;
    while ((count = read(file, text + length, about.st_size - length)) > 0) length += count;
    text[length] = 0;
    close(file);
    return text;
}

static int by_document(const void *a, const void *b) {
    const Line *x = a, *y = b;
    int order = strcmp(x->topic, y->topic);
    return order ? order : strcmp(x->doc, y->doc);
}

static int by_score(const void *a, const void *b) {
    const Line *x = a, *y = b;
    int order = strcmp(x->topic, y->topic);
    if (order) return order;
    if (x->score != y->score) return x->score > y->score ? -1 : 1;
    return strcmp(y->doc, x->doc);
}

static Line *cut_lines(char *text, int fields, size_t *count) {
    size_t room = 1024, n = 0;
    Line *lines = malloc(room * sizeof *lines);
    char *rest_of_text, *rest_of_line;
    for (char *line = strtok_r(text, "\n", &rest_of_text); line; line = strtok_r(NULL, "\n", &rest_of_text)) {
        char *field[6];
        int k = 0;
        for (char *f = strtok_r(line, " \t\r", &rest_of_line); f; f = strtok_r(NULL, " \t\r", &rest_of_line)) {
            if (k < 6) field[k] = f;
            k++;
        }
        if (!k) continue;
        if (k != fields) exit(3);
        if (n == room) lines = realloc(lines, (room *= 2) * sizeof *lines);
        lines[n].topic = field[0];
        lines[n].doc = field[2];
        lines[n].score = fields == 6 ? atof(field[4]) : 0;
        lines[n].grade = fields == 4 ? atoi(field[3]) : -1; /* -1: not judged */
        n++;
    }
    *count = n;
    return lines;
}

/* Adds a topic that has so many relevant documents and so many judged lower, by its list. */
static void add_topic(Scores *all, const Line *list, long length, long relevant, long lower) {
    long hits = 0, first = 0, hits_at_relevant = 0, lower_above = 0, at[CUTOFFS] = {0};
    long cap = relevant < lower ? relevant : lower;
    double sum = 0, preference = 0;
    for (long rank = 1; rank <= length; rank++) {
        int grade = list[rank - 1].grade;
        if (grade < 1) {
            lower_above += grade == 0;
            continue;
        }
        hits++;
        sum += (double)hits / rank;
        if (!first) first = rank;
        hits_at_relevant += rank <= relevant;
        preference += cap ? 1 - (double)(lower_above < cap ? lower_above : cap) / cap : 1;
        for (int c = 0; c < CUTOFFS; c++) at[c] += rank <= cutoffs[c];
    }
    all->topics++;
    all->retrieved += length;
    all->relevant += relevant;
    all->relevant_retrieved += hits;
    if (!relevant) return;
    all->map += sum / relevant;
    all->r_precision += (double)hits_at_relevant / relevant;
    all->bpref += preference / relevant;
    if (first) all->reciprocal += 1.0 / first;
    for (int c = 0; c < CUTOFFS; c++) all->at[c] += (double)at[c] / cutoffs[c];
}

static void print_scores(const char *run, const Scores *all) {
    printf("%s\tall\tnum_q\t%ld\n", run, all->topics);
    printf("%s\tall\tnum_ret\t%ld\n", run, all->retrieved);
    printf("%s\tall\tnum_rel\t%ld\n", run, all->relevant);
    printf("%s\tall\tnum_rel_ret\t%ld\n", run, all->relevant_retrieved);
    printf("%s\tall\tmap\t%.4f\n", run, all->map / all->topics);
    printf("%s\tall\tRprec\t%.4f\n", run, all->r_precision / all->topics);
    printf("%s\tall\tbpref\t%.4f\n", run, all->bpref / all->topics);
    printf("%s\tall\trecip_rank\t%.4f\n", run, all->reciprocal / all->topics);
    for (int c = 0; c < CUTOFFS; c++)
        printf("%s\tall\tP_%ld\t%.4f\n", run, cutoffs[c], all->at[c] / all->topics);
}

int main(int argc, char **argv) {
    if (argc != 3) return 2;
    size_t runs, judged;
    Line *run = cut_lines(read_whole(argv[1]), 6, &runs);
    Line *qrels = cut_lines(read_whole(argv[2]), 4, &judged);
    qsort(qrels, judged, sizeof *qrels, by_document);
    qsort(run, runs, sizeof *run, by_document);
    for (size_t i = 0, j = 0; i < runs; i++) {
        while (j < judged && by_document(&qrels[j], &run[i]) < 0) j++;
        if (j < judged && !by_document(&qrels[j], &run[i])) run[i].grade = qrels[j].grade;
    }
    qsort(run, runs, sizeof *run, by_score);
    Scores all = {0};
    for (size_t i = 0, j = 0; j < judged;) {
        char *topic = qrels[j].topic;
        long relevant = 0, lower = 0;
        for (; j < judged && !strcmp(qrels[j].topic, topic); j++) {
            relevant += qrels[j].grade >= 1;
            lower += qrels[j].grade < 1;
        }
        while (i < runs && strcmp(run[i].topic, topic) < 0) i++;
        size_t start = i;
        while (i < runs && !strcmp(run[i].topic, topic)) i++;
        add_topic(&all, run + start, i - start, relevant, lower);
    }
    print_scores(argv[1], &all);
    return 0;
}
