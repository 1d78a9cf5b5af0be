/*
**  kelubashi results: the result file of an element file, a station's job at boot.
*/
#include "command.h"
#include "parts/element_file.h"
#include "parts/origin.h"
#include "parts/output.h"
#include "parts/result_file.h"
#include "parts/say.h"

enum { TOLD = 20 };     /* so many refused requests are told one by one */

/* A line for each refused request, and one for those beyond the twentieth. */
static void say_refused_requests(const struct element_file *elements, const struct result_file *results, size_t refused)
{
    size_t request, told = 0;

    for (request = 0; request < record_count(elements, REQUESTS) && told < TOLD; request++) {
        uint64_t number = row_word(results, request, KELUBASHI_REFUSAL);

        if (number != 0) {
            say_refused_request(elements, request, number);
            told++;
        }
    }
    if (refused > told)
        say("%s: more refused requests: %lu; kelubashi show has them all", elements->name,
            (unsigned long)(refused - told));
}

/* What was done, in a line. */
static void say_done(const struct call *call, const struct element_file *elements, size_t refused)
{
    const char *place = output_name(call);

    if (elements_refusal(elements) != 0)
        say("%s: the refusal is written to %s", elements->name, place);
    else
        say("%s: requests %lu, refused %lu: the results are written to %s", elements->name,
            (unsigned long)record_count(elements, REQUESTS), (unsigned long)refused, place);
}

static enum status run(const struct call *call)
{
    static struct element_file elements;
    static struct result_file results;
    size_t refused;

    if (!take_elements(call->operands[0], &elements) || !make_results(&elements, &results))
        return NOT_DONE;
    refused = refused_count(&results, record_count(&elements, REQUESTS));
    if (elements_refusal(&elements) != 0)
        say_refused_elements(&elements);
    else
        say_refused_requests(&elements, &results, refused);
    if (write_output(call->output, elements.name, results.bytes, results.length) != ALL_WELL)
        return NOT_DONE;
    if (!call->quiet)
        say_done(call, &elements, refused);
    return refused != 0 || elements_refusal(&elements) != 0 ? SOMETHING_AMISS : ALL_WELL;
}

const struct subcommand results_subcommand = {
    "results", "ELEMENTS [-o RESULTS]", "the results of an element file: the station's job at boot",
    "Writes the result file of the element file ELEMENTS to RESULTS, or to standard output.\n"
    "RESULTS is replaced when the new file is whole on the disk; until then the old one stays.\n"
    "A refused element file and each refused request are told on standard error, and in the result file.\n",
    1, "qo:", 0, run
};
