// Writes databases of KDBX 3.1 with KeePass 2's own library (Debian's keepass2), uncompressed, with small costs of their keys.
// make-databases compiles and calls it:
//
//     mcs -r:/usr/lib/keepass2/KeePass.exe -out:keepass2-database.exe keepass2-database.cs
//     MONO_PATH=/usr/lib/keepass2 mono keepass2-database.exe FILE CIPHER PASSWORD KEYFILE
//
// CIPHER is aes256 or chacha20, which KeePass 2 has of its own; an empty PASSWORD or KEYFILE is none. KeePass 2 would write a
// database under ChaCha20 as KDBX 4, so that its version is asked for.
using System;
using System.IO;
using System.Reflection;
using System.Text;
using KeePassLib;
using KeePassLib.Collections;
using KeePassLib.Cryptography.Cipher;
using KeePassLib.Cryptography.KeyDerivation;
using KeePassLib.Interfaces;
using KeePassLib.Keys;
using KeePassLib.Security;
using KeePassLib.Serialization;

static class KeePass2Database
{
    const string Picture = "iVBORw0KGgoAAAANSUhEUgAAAAEAAAABCAAAAAA6fptVAAAACklEQVR42mNoAAAAggCB2kUIOwAAAABJRU5ErkJggg==";

    static PwEntry Added(PwGroup group, string title, string user, string password)
    {
        var entry = new PwEntry(true, true);
        group.AddEntry(entry, true);
        entry.Strings.Set("Title", new ProtectedString(false, title));
        entry.Strings.Set("UserName", new ProtectedString(false, user));
        entry.Strings.Set("Password", new ProtectedString(true, password));
        return entry;
    }

    static PwGroup Below(PwGroup group, string name)
    {
        var made = new PwGroup(true, true, name, PwIcon.Folder);
        group.AddGroup(made, true);
        return made;
    }

    // Groups in three levels, an entry with an older version, a shared attachment and an open one, an icon, a bin with an entry, and
    // a tombstone.
    static void Fill(PwDatabase database)
    {
        var root = database.RootGroup;
        database.CustomIcons.Add(new PwCustomIcon(new PwUuid(true), Convert.FromBase64String(Picture)));
        database.CustomData.Set("made", "by a script");
        var file = new ProtectedBinary(true, new byte[] { 0, 1, 255, 65, 66, 67 });
        var bank = Added(root, "Bank", "ada", "pa<ss>&\"word");
        bank.Strings.Set("PIN", new ProtectedString(true, "0815 – é"));
        bank.Binaries.Set("key.bin", file);
        bank.CreateBackup(database);
        bank.Strings.Set("UserName", new ProtectedString(false, "ada.l"));
        bank.CustomIconUuid = database.CustomIcons[0].Uuid;
        bank.AddTag("one");
        bank.Touch(true, false);
        var work = Below(root, "Work");
        var mail = Added(work, "Mél – 邮件", "zoë", "ключ-🔑");
        mail.Binaries.Set("again.bin", file);
        mail.Binaries.Set("größe.txt", new ProtectedBinary(false, Encoding.UTF8.GetBytes("not hidden")));
        Added(Below(work, "Größere Kunden"), "Portal", "", "s3");
        Below(root, "Nothing in it");
        var bin = new PwGroup(true, true, "Bin", PwIcon.TrashBin);
        root.AddGroup(bin, true);
        database.RecycleBinUuid = bin.Uuid;
        Added(bin, "Old", "", "");
        database.DeletedObjects.Add(new PwDeletedObject(new PwUuid(true), DateTime.UtcNow));
    }

    static int Main(string[] words)
    {
        if (words.Length != 4) return 2;
        var key = new CompositeKey();
        if (words[2] != "") key.AddUserKey(new KcpPassword(words[2]));
        if (words[3] != "") key.AddUserKey(new KcpKeyFile(words[3]));
        var database = new PwDatabase();
        var place = IOConnectionInfo.FromPath(words[0]);
        database.New(place, key);
        database.Compression = PwCompressionAlgorithm.None;
        database.DataCipherUuid = words[1] == "chacha20" ? new ChaCha20Engine().CipherUuid : StandardAesEngine.AesUuid;
        var derivation = new AesKdf();
        database.KdfParameters = derivation.GetDefaultParameters();
        database.KdfParameters.SetUInt64(AesKdf.ParamRounds, 1000);
        derivation.Randomize(database.KdfParameters);
        Fill(database);
        var file = new KdbxFile(database);
        var everything = BindingFlags.Instance | BindingFlags.Public | BindingFlags.NonPublic;
        typeof(KdbxFile).GetProperty("ForceVersion", everything).SetValue(file, 0x00030001u, null);
        using (var stream = new FileStream(words[0], FileMode.Create)) file.Save(stream, null, KdbxFormat.Default, new NullStatusLogger());
        return 0;
    }
}
