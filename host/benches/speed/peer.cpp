// The same work by Crypto++: its Kalyna block, the standard's modes over it, the key set for each cell.

#include <cryptopp/kalyna.h>

#include <cstddef>
#include <cstdint>
#include <cstring>

namespace {

// The cipher calls in the order of their image kinds.
enum Call { BLK, UNBLK, CTR, OFB, CFB, UNCFB, CBC, UNCBC, CBP, UNCBP, MAC, CHK };

template <class Kalyna, size_t KEY>
class Peer {
    static constexpr size_t B = Kalyna::BLOCKSIZE;
    typename Kalyna::Encryption sealing;
    typename Kalyna::Decryption opening;

    void seal(const uint8_t *in, uint8_t *out) { sealing.ProcessBlock(in, out); }

    static void add_xor(const uint8_t *a, const uint8_t *b, uint8_t *out, size_t n) {
        for (size_t i = 0; i < n; i++) out[i] = a[i] ^ b[i];
    }

    // Plus one over the whole block, low byte first.
    static void count(uint8_t *counter) {
        for (size_t i = 0; i < B; i++)
            if (++counter[i] != 0) return;
    }

    static size_t part(size_t at, size_t n) { return n - at < B ? n - at : B; }

    size_t ctr(const uint8_t *iv, const uint8_t *text, size_t n, uint8_t *out) {
        uint8_t counter[B], gamma[B];
        seal(iv, counter);
        for (size_t at = 0; at < n; at += B) {
            count(counter);
            seal(counter, gamma);
            add_xor(text + at, gamma, out + at, part(at, n));
        }
        return n;
    }

    size_t ofb(const uint8_t *iv, const uint8_t *text, size_t n, uint8_t *out) {
        uint8_t gamma[B];
        std::memcpy(gamma, iv, B);
        for (size_t at = 0; at < n; at += B) {
            seal(gamma, gamma);
            add_xor(text + at, gamma, out + at, part(at, n));
        }
        return n;
    }

    // A short last block takes the last bytes of its gamma.
    size_t cfb(const uint8_t *iv, const uint8_t *text, size_t n, uint8_t *out, const uint8_t *fed) {
        uint8_t gamma[B];
        const uint8_t *before = iv;
        for (size_t at = 0; at < n; at += B) {
            size_t r = part(at, n);
            seal(before, gamma);
            add_xor(text + at, gamma + B - r, out + at, r);
            before = fed + at;
        }
        return n;
    }

    size_t cbc(const uint8_t *iv, const uint8_t *text, size_t n, uint8_t *out) {
        const uint8_t *before = iv;
        uint8_t entering[B];
        for (size_t at = 0; at < n; at += B) {
            add_xor(text + at, before, entering, B);
            seal(entering, out + at);
            before = out + at;
        }
        return n;
    }

    size_t uncbc(const uint8_t *iv, const uint8_t *text, size_t n, uint8_t *out) {
        const CryptoPP::BlockTransformation &block = opening; // the step is public there only
        const uint8_t *before = iv;
        for (size_t at = 0; at < n; at += B) {
            block.ProcessAndXorBlock(text + at, before, out + at);
            before = text + at;
        }
        return n;
    }

    size_t cbp(const uint8_t *iv, const uint8_t *text, size_t n, uint8_t *out) {
        uint8_t filled[1024 + B];
        size_t whole = B * (n / B + 1);
        std::memcpy(filled, text, n);
        filled[n] = 0x80;
        std::memset(filled + n + 1, 0, whole - n - 1);
        return cbc(iv, filled, whole, out);
    }

    size_t uncbp(const uint8_t *iv, const uint8_t *text, size_t n, uint8_t *out) {
        uncbc(iv, text, n, out);
        size_t at = n;
        while (at > n - B && out[at - 1] == 0) at--;
        return at > n - B && out[at - 1] == 0x80 ? at - 1 : 0;
    }

    size_t mac(const uint8_t *text, size_t n, uint8_t *out) {
        uint8_t mask[B] = {0}, state[B] = {0};
        size_t r = n % B, last = r ? n - r : n - B;
        mask[0] = r != 0;
        seal(mask, mask);
        for (size_t at = 0; at < last; at += B) {
            add_xor(text + at, state, state, B);
            seal(state, state);
        }
        add_xor(text + last, state, state, r ? r : B);
        if (r) state[r] ^= 0x80;
        add_xor(mask, state, state, B);
        seal(state, out);
        return B;
    }

    size_t chk(const uint8_t *tag, const uint8_t *text, size_t n, uint8_t *out) {
        uint8_t whole[B];
        mac(text, n, whole);
        out[0] = std::memcmp(whole, tag, B) == 0;
        return 1;
    }

public:
    // second: IV, tag of B bytes, or block; text: nothing for a block.
    size_t call(int f, const uint8_t *key, const uint8_t *second, const uint8_t *text, size_t n, uint8_t *out) {
        bool opens = f == UNBLK || f == UNCBC || f == UNCBP;
        if (opens)
            opening.SetKey(key, KEY);
        else
            sealing.SetKey(key, KEY);
        switch (f) {
        case BLK: seal(second, out); return B;
        case UNBLK: opening.ProcessBlock(second, out); return B;
        case CTR: return ctr(second, text, n, out);
        case OFB: return ofb(second, text, n, out);
        case CFB: return cfb(second, text, n, out, out);
        case UNCFB: return cfb(second, text, n, out, text);
        case CBC: return cbc(second, text, n, out);
        case UNCBC: return uncbc(second, text, n, out);
        case CBP: return cbp(second, text, n, out);
        case UNCBP: return uncbp(second, text, n, out);
        case MAC: return mac(text, n, out);
        default: return chk(second, text, n, out);
        }
    }
};

Peer<CryptoPP::Kalyna128, 16> suite1;
Peer<CryptoPP::Kalyna128, 32> suite2;
Peer<CryptoPP::Kalyna256, 32> suite3;
Peer<CryptoPP::Kalyna256, 64> suite4;
Peer<CryptoPP::Kalyna512, 64> suite5;

} // namespace

// The answer's length; lengths are right, the caller sees to that.
extern "C" size_t peer_call(int f, uint64_t suite, const uint8_t *key, const uint8_t *second, const uint8_t *text,
                            size_t n, uint8_t *out) {
    switch (suite) {
    case 1: return suite1.call(f, key, second, text, n, out);
    case 2: return suite2.call(f, key, second, text, n, out);
    case 3: return suite3.call(f, key, second, text, n, out);
    case 4: return suite4.call(f, key, second, text, n, out);
    default: return suite5.call(f, key, second, text, n, out);
    }
}
