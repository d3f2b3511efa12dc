package fantanolive;

import java.io.IOException;
import java.io.InputStream;
import java.nio.file.Files;
import java.nio.file.Path;
import java.nio.file.StandardCopyOption;

/** Loads the native library: the file that the property fantanolive.library names, else the one in the jar. */
final class Loader {
    private static final String NAME = "libfantanolive_java.so";

    private Loader() {}

    static void load() {
        String named = System.getProperty("fantanolive.library");
        if (named != null) {
            System.load(Path.of(named).toAbsolutePath().toString());
            return;
        }
        try (InputStream library = Loader.class.getResourceAsStream(NAME)) {
            if (library == null) {
                System.loadLibrary("fantanolive_java");
                return;
            }
            loadCopy(library);
        } catch (IOException problem) {
            throw new UnsatisfiedLinkError("the native library can't be unpacked: " + problem.getMessage());
        }
    }

    /** Loads a copy in a new folder that its owner alone can read; the copy goes as soon as it is loaded. */
    private static void loadCopy(InputStream library) throws IOException {
        Path folder = Files.createTempDirectory("fantanolive");
        Path copy = folder.resolve(NAME);
        try {
            Files.copy(library, copy, StandardCopyOption.REPLACE_EXISTING);
            System.load(copy.toString());
        } finally {
            Files.deleteIfExists(copy);
            Files.deleteIfExists(folder);
        }
    }
}
