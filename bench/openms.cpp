// How long OpenMS's reader of mzTab takes to load a file of protein rows, beside `mztab_judge` on the same bytes in the same run: the best of three each.
// The file has every column that this reader asks for; it keeps what it reads, and judges no rule but what it stumbles over.
#include <OpenMS/FORMAT/MzTab.h>
#include <OpenMS/FORMAT/MzTabFile.h>
#include <chrono>
#include <cstdio>
#include <fstream>
#include <string>
extern "C" {
#include "../crates/capi/mztab.h"
}

static const size_t LIMIT = 16777216;

static double now() { return std::chrono::duration<double, std::milli>(std::chrono::steady_clock::now().time_since_epoch()).count(); }

// Metadata, a header and as many rows as fit.
static std::string drawn() {
    std::string file =
        "MTD\tmzTab-version\t1.0.0\nMTD\tmzTab-mode\tSummary\nMTD\tmzTab-type\tIdentification\nMTD\tdescription\tYeast check\n"
        "MTD\tms_run[1]-location\tfile:///a.mzML\nMTD\tprotein_search_engine_score[1]\t[MS, MS:1001171, Mascot:score, ]\n"
        "MTD\tfixed_mod[1]\t[MS, MS:1002453, No fixed modifications searched, ]\nMTD\tvariable_mod[1]\t[MS, MS:1002454, No variable modifications searched, ]\n"
        "PRH\taccession\tdescription\ttaxid\tspecies\tdatabase\tdatabase_version\tsearch_engine\tbest_search_engine_score[1]\tsearch_engine_score[1]_ms_run[1]\t"
        "reliability\tnum_psms_ms_run[1]\tnum_peptides_distinct_ms_run[1]\tnum_peptides_unique_ms_run[1]\tambiguity_members\tmodifications\turi\tgo_terms\t"
        "protein_coverage\n";
    for (unsigned k = 0;; k++) {
        char row[256];
        std::snprintf(row, sizeof row, "PRT\tP%05u\tEnolase %u\t4932\tyeast\tUniProtKB\t2011_11\t[MS, MS:1001207, Mascot, ]\t%u.%02u\t%u.5\t1\t%u\t%u\t%u\tnull\tnull\tnull\tnull\t0.%02u\n",
                      k % 100000, k % 7, k % 200, k % 100, k % 90, k % 300, k % 40, k % 20, k % 100);
        if (file.size() + std::string(row).size() > LIMIT) return file;
        file += row;
    }
}

int main(int count, char **words) {
    if (count != 2) return 2;
    std::string file = drawn();
    std::ofstream(words[1], std::ios::binary) << file;
    double judged = 1e18, loaded = 1e18;
    for (int i = 0; i < 3; i++) {
        uint32_t number = 77, none[1];
        double start = now();
        uint32_t breaks = mztab_judge((const uint8_t *)file.data(), file.size(), none, 0, &number);
        double middle = now();
        OpenMS::MzTab table;
        OpenMS::MzTabFile().load(words[1], table);
        double end = now();
        if (breaks != 0) std::printf("WRONG: %u breaks\n", breaks);
        if (table.getProteinSectionRows().empty()) std::printf("WRONG: no row was loaded\n");
        judged = std::min(judged, middle - start);
        loaded = std::min(loaded, end - middle);
    }
    std::printf("%-30s %10.2f ms, OpenMS's reader %10.2f ms, %.1f times\n", "rows with 18 columns, 16 MB", judged, loaded, loaded / judged);
}
