/*
 * The header from C++: every function is called, with its types as the header
 * gives them. Prints, last, 'N passed, M failed'.
 */
#include "waggleloft.h"

#include "check.h"

#include <array>
#include <cstdint>
#include <cstdio>
#include <cstring>

int main()
{
    std::array<std::uint32_t, WAGGLELOFT_IMAGE_WORDS> image{};
    std::array<std::uint32_t, WAGGLELOFT_WORK_WORDS> work{};
    std::array<std::uint8_t, WAGGLELOFT_SHA384_BYTES> runtime{}, manifest{}, secret{};
    std::array<std::uint8_t, WAGGLELOFT_ANSWER_LONGEST> answer{};
    const std::array<std::uint8_t, 4> disable{0xDB, 0xFE, 0xFF, 0xFF};
    const std::array<std::uint8_t, 1> none{};
    std::uint32_t outcome = 99;
    std::size_t written = 99, stores = 0;

    check(waggleloft_work_words() == work.size() && waggleloft_image_words() == image.size(), "sizes");
    char version[32];
    (void)std::snprintf(version, sizeof version, "%d.%d.%d", WAGGLELOFT_VERSION_MAJOR, WAGGLELOFT_VERSION_MINOR, WAGGLELOFT_VERSION_PATCH);
    check(std::strcmp(WAGGLELOFT_VERSION, version) == 0, "version");
    check(waggleloft_sha384(none.data(), 0, runtime.data(), runtime.size()) == WAGGLELOFT_OK && runtime[0] == 0x38, "digest of nothing");
    std::array<std::uint8_t, WAGGLELOFT_SHA384_STATE_BYTES> state{};
    check(waggleloft_sha384_state_bytes() == state.size() && WAGGLELOFT_SHA384_TOTAL_LONGEST == UINT32_MAX, "sizes of a running digest");
    check(waggleloft_sha384_begin(state.data(), state.size()) == WAGGLELOFT_OK, "begin");
    check(waggleloft_sha384_feed(state.data(), state.size(), none.data(), 0) == WAGGLELOFT_OK, "feed");
    check(waggleloft_sha384_finish(state.data(), state.size(), answer.data(), answer.size()) == WAGGLELOFT_OK &&
              std::memcmp(answer.data(), runtime.data(), runtime.size()) == 0, "finish");
    check(waggleloft_checksum(WAGGLELOFT_DISABLE_ATTESTATION, none.data(), 0) == UINT32_C(0xFFFFFEDB), "checksum");
    manifest.fill(0x33);
    secret.fill(0x22);
    check(waggleloft_open_cold_boot(image.data(), image.size(), runtime.data(), runtime.size(), manifest.data(), manifest.size(),
                                    secret.data(), secret.size(), work.data(), work.size(), &outcome) == WAGGLELOFT_OK &&
              outcome == WAGGLELOFT_COLD, "cold boot");
    while (waggleloft_store(work.data(), work.size(), image.data(), image.size()) == WAGGLELOFT_OK)
        stores++;
    check(stores == image.size() + 1, "stores of a cold boot: every word, and the mark twice");
    std::array<std::uint8_t, WAGGLELOFT_ENTRY_LONGEST> entry{};
    std::size_t told = 0;
    check(waggleloft_entry(work.data(), work.size(), entry.data(), entry.size(), &told) == WAGGLELOFT_OK && told == 97 &&
              entry[0] == 1 && std::memcmp(entry.data() + 1, runtime.data(), runtime.size()) == 0, "the entry of a cold boot");
    check(waggleloft_entry(work.data(), work.size(), entry.data(), told - 1, &told) == WAGGLELOFT_SHORT_FOR_ENTRY, "no room for it");
    check(image[WAGGLELOFT_NODES_AT] == 0x00FF0001 && image[WAGGLELOFT_NODES_AT + WAGGLELOFT_NODE_SVN] == 0, "the root and its svn");
    /* The root's handle rotated: checksum, size 21, command 3, the default handle. */
    std::array<std::uint8_t, 8 + 1 + WAGGLELOFT_HANDLE_BYTES> rotate{0xCC, 0xFE, 0xFF, 0xFF, 21, 0, 0, 0, WAGGLELOFT_TREE_ROTATE};
    std::array<std::uint8_t, WAGGLELOFT_HANDLE_BYTES> fresh{};
    fresh.fill(0xA5);
    check(waggleloft_open_request(image.data(), image.size(), WAGGLELOFT_INVOKE_DPE_COMMAND, rotate.data(), rotate.size(), 0, none.data(), 0,
                                  false, fresh.data(), fresh.size(), work.data(), work.size()) == WAGGLELOFT_OK &&
              waggleloft_left(work.data(), work.size()) == 7, "a rotate");
    check(waggleloft_open_request(image.data(), image.size(), WAGGLELOFT_DISABLE_ATTESTATION, disable.data(), disable.size(), 0,
                                  none.data(), 0, false, none.data(), 0, work.data(), work.size()) == WAGGLELOFT_OK, "disable");
    check(waggleloft_left(work.data(), work.size()) == 15, "stores of a disabling");
    check(waggleloft_answer(work.data(), work.size(), answer.data(), answer.size(), &written) == WAGGLELOFT_STORES_LEFT && written == 99, "no answer yet");
    check(waggleloft_open_update_boot(image.data(), image.size(), runtime.data(), runtime.size(), manifest.data(), manifest.size(),
                                      secret.data(), secret.size(), false, work.data(), work.size(), &outcome) == WAGGLELOFT_OK &&
              outcome == WAGGLELOFT_KEPT, "update boot");

    return conclude();
}
