/* Macros in another folder than the sources: parts of loops whose text isn't found. */
#define RETRY goto again
#define REPEAT do {
#define UNTIL(done) } while (!(done))
#define LABEL(name) name##_label:
