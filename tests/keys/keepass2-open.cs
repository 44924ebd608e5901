// Opens a database with KeePass 2's own library (Debian's keepass2), and prints its cipher and its key derivation in a line each, as
// KeePassXC does, and its document by itself. `others` compiles and calls it:
//
//     mcs -r:/usr/lib/keepass2/KeePass.exe -out:keepass2-open.exe keepass2-open.cs
//     MONO_PATH=/usr/lib/keepass2 mono keepass2-open.exe FILE PASSWORD KEYFILE
//
// An empty PASSWORD or KEYFILE is none. Ends with status 3 where the key does not open it.
using System;
using System.IO;
using KeePassLib;
using KeePassLib.Cryptography.Cipher;
using KeePassLib.Cryptography.KeyDerivation;
using KeePassLib.Interfaces;
using KeePassLib.Keys;
using KeePassLib.Serialization;

static class KeePass2Open
{
    static string Derivation(KdfParameters parameters)
    {
        if (parameters.KdfUuid.Equals(new AesKdf().Uuid))
            return "AES (" + parameters.GetUInt64(AesKdf.ParamRounds, 0) + " rounds)";
        var kind = parameters.KdfUuid.Equals(new Argon2Kdf(Argon2Type.ID).Uuid) ? "Argon2id" : "Argon2d";
        return kind + " (" + parameters.GetUInt64(Argon2Kdf.ParamIterations, 0) + " rounds, "
            + parameters.GetUInt64(Argon2Kdf.ParamMemory, 0) / 1024 + " KB)";
    }

    static int Main(string[] words)
    {
        if (words.Length != 3) return 2;
        var key = new CompositeKey();
        if (words[1] != "") key.AddUserKey(new KcpPassword(words[1]));
        if (words[2] != "") key.AddUserKey(new KcpKeyFile(words[2]));
        var database = new PwDatabase();
        try
        {
            database.Open(IOConnectionInfo.FromPath(words[0]), key, new NullStatusLogger());
        }
        catch (InvalidCompositeKeyException)
        {
            return 3;
        }
        var cipher = database.DataCipherUuid.Equals(StandardAesEngine.AesUuid) ? "AES" : "ChaCha20";
        Console.WriteLine("Cipher: " + cipher + " 256-bit");
        Console.WriteLine("KDF: " + Derivation(database.KdfParameters));
        Console.Out.Flush();
        using (var output = Console.OpenStandardOutput())
            new KdbxFile(database).Save(output, null, KdbxFormat.PlainXml, new NullStatusLogger());
        return 0;
    }
}
