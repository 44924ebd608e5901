"""The ciphers and key derivations of tests/opening/reference.py by libgcrypt, which every Debian system has, so that what uses that
reader needs no further package. `sealing` is tests/moving/sealing.py over them, and `opening` the reader."""
import ctypes, ctypes.util, os, sys

sys.dont_write_bytecode = True
here = os.path.dirname(os.path.realpath(__file__))
sys.path[1:1] = [os.path.join(here, "..", "moving"), os.path.join(here, "..", "importing")]
import sealing
opening, plain = sealing.opening, sealing.opening.plain

AES, TWOFISH, SALSA20, CHACHA20 = 9, 10, 313, 316
ECB, CBC, STREAM = 1, 3, 4
ARGON2, ARGON2_KINDS = 64, {"argon2d": 0, "argon2id": 2}

gcrypt = ctypes.CDLL(ctypes.util.find_library("gcrypt") or "libgcrypt.so.20")
gcrypt.gcry_check_version(None)


def due(error):
    if error:
        raise ValueError(f"libgcrypt: error {error & 0xFFFF}")


class Cipher:
    """A cipher under a key, and with a vector where the mode takes one. A stream goes on from call to call."""

    def __init__(self, algorithm, mode, key, vector=None):
        self.handle = ctypes.c_void_p()
        due(gcrypt.gcry_cipher_open(ctypes.byref(self.handle), algorithm, mode, 0))
        due(gcrypt.gcry_cipher_setkey(self.handle, key, ctypes.c_size_t(len(key))))
        if vector is not None:
            due(gcrypt.gcry_cipher_setiv(self.handle, vector, ctypes.c_size_t(len(vector))))

    def of(self, call, text):
        out = ctypes.create_string_buffer(len(text))
        if text:
            due(call(self.handle, out, ctypes.c_size_t(len(text)), text, ctypes.c_size_t(len(text))))
        return out.raw

    def encrypt(self, text):
        return self.of(gcrypt.gcry_cipher_encrypt, text)

    def decrypt(self, text):
        return self.of(gcrypt.gcry_cipher_decrypt, text)

    def __del__(self):
        gcrypt.gcry_cipher_close(self.handle)


def cipher_of(header, key):
    """The cipher of a file."""
    if header.cipher == "chacha20":
        return Cipher(CHACHA20, STREAM, key, header.iv)
    return Cipher(AES if header.cipher == "aes" else TWOFISH, CBC, key, header.iv)


def stream_of(number, key):
    """The stream that hides the values of a document."""
    if number == 2:
        return Cipher(SALSA20, STREAM, opening.sha256(key), bytes.fromhex("e830094b97205d2a"))
    if number == 3:
        drawn = opening.sha512(key)
        return Cipher(CHACHA20, STREAM, drawn[:32], drawn[32:44])
    raise opening.Refused(5, f"stream {number}")


def argon2(composite, kind, passes, memory, lanes, salt):
    handle, tag = ctypes.c_void_p(), ctypes.create_string_buffer(32)
    numbers = (ctypes.c_ulong * 4)(32, passes, memory // 1024, lanes)
    size = ctypes.c_size_t
    due(gcrypt.gcry_kdf_open(ctypes.byref(handle), ARGON2, ARGON2_KINDS[kind], numbers, 4, composite, size(len(composite)), salt,
                             size(len(salt)), None, size(0), None, size(0)))
    due(gcrypt.gcry_kdf_compute(handle, None))
    due(gcrypt.gcry_kdf_final(handle, size(32), tag))
    gcrypt.gcry_kdf_close(handle)
    return tag.raw


def transformed(composite, kdf):
    """What a key derivation makes of a composite key."""
    kind, rounds, memory, lanes, salt = kdf
    if kind != "aes":
        return argon2(composite, kind, rounds, memory, lanes, salt)
    cipher = Cipher(AES, ECB, salt)
    for _ in range(rounds):
        composite = cipher.encrypt(composite)
    return opening.sha256(composite)


opening.cipher_of, opening.stream_of, opening.transformed = cipher_of, stream_of, transformed
