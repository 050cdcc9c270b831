import java.awt.Color;
import java.awt.Font;
import java.awt.FontMetrics;
import java.awt.Graphics2D;
import java.awt.RenderingHints;
import java.awt.image.BufferedImage;
import java.io.ByteArrayOutputStream;
import java.io.IOException;
import java.nio.charset.StandardCharsets;
import java.nio.file.Files;
import java.nio.file.Path;
import java.util.ArrayList;
import java.util.Arrays;
import java.util.LinkedHashMap;
import java.util.List;
import java.util.Map;
import java.util.TreeMap;
import java.util.stream.Collectors;
import java.util.zip.Deflater;
import java.util.zip.DeflaterOutputStream;
import org.openscience.cdk.depict.Depiction;
import org.openscience.cdk.depict.DepictionGenerator;
import org.openscience.cdk.exception.CDKException;
import org.openscience.cdk.interfaces.IAtomContainer;
import org.openscience.cdk.interfaces.IPseudoAtom;
import org.openscience.cdk.renderer.generators.standard.StandardGenerator;
import org.openscience.cdk.silent.SilentChemObjectBuilder;
import org.openscience.cdk.smiles.SmilesParser;

/**
 * A contact sheet of orders: reads what `./run --explain` prints from standard input, and writes NAME.html and NAME.pdf, with a picture of
 * each accepted row, what it says in words, and each refused row with its sentence.
 *
 * <p>CDK makes a pseudo atom of a labelled one, and its O would be lost: the labels are taken off the line and shown as annotations.
 */
public class Sheet {
    public static void main(String[] args) throws IOException {
        String name = args[0];
        String title = args[1];
        List<Row> rows = Row.read(new String(System.in.readAllBytes(), StandardCharsets.UTF_8));
        Files.writeString(Path.of(name + ".html"), Page.html(title, rows));
        if (!args[2].equals("--html")) {
            Files.write(Path.of(name + ".pdf"), Paper.pdf(title, rows));
        }
    }
}

/** A row of the sheet beside its answer. */
class Row {
    /** The columns that the program knows; the others are the desk's own. */
    private static final List<String> KNOWN = List.of("class", "swap", "tail", "sn1", "sn2", "sn3", "sn4");

    final String number;
    final String answer;
    final String meaning;
    final String mender;
    final String names;
    final String own;
    final String lineText;
    /** What the line says in words, and where its carbons are; empty for a refused row. */
    final List<String> words = new ArrayList<>();
    /** None for a refused row, and for a line that CDK does not read. */
    Picture picture;

    private Row(String[] titles, String[] cells) {
        number = cells[0];
        answer = cells[1];
        meaning = cells[3];
        mender = cells[4];
        StringBuilder names = new StringBuilder();
        StringBuilder own = new StringBuilder();
        for (int i = 5; i < cells.length - 2; i++) {
            String title = i < titles.length - 2 ? titles[i] : "?";
            if (cells[i].isEmpty()) {
                continue;
            }
            if (title.equals("class")) {
                names.insert(0, cells[i] + "   ");
            } else if (KNOWN.contains(title)) {
                names.append(title).append(' ').append(cells[i]).append("   ");
            } else {
                own.append(title).append(' ').append(cells[i]).append("   ");
            }
        }
        this.names = names.toString().trim();
        this.own = own.toString().trim();
        lineText = cells[cells.length - 2];
        if (!answer.equals("0")) {
            return;
        }
        Line line = new Line(lineText, cells[cells.length - 1]);
        words.addAll(line.words());
        try {
            picture = new Picture(line);
        } catch (CDKException | RuntimeException fault) {
            words.add("no picture: CDK does not read this line (" + String.valueOf(fault.getMessage()).lines().findFirst().orElse("") + ")");
        }
    }

    boolean accepted() {
        return answer.equals("0");
    }

    String head() {
        return "row " + number + (own.isEmpty() ? "" : "   " + own);
    }

    String refusal() {
        return "refused, " + answer + ": " + meaning + "; " + mender + " can mend it";
    }

    static List<Row> read(String text) {
        List<Row> rows = new ArrayList<>();
        String[] titles = null;
        for (String line : text.split("\n")) {
            String[] cells = line.split("\t", -1);
            if (titles == null) {
                titles = cells;
            } else {
                rows.add(new Row(titles, cells));
            }
        }
        return rows;
    }
}

/** A CXSMILES line taken apart: document 01, "The line and its reading". */
class Line {
    /** The groups that may float, by what is written of them. */
    private static final Map<String, String> GROUPS = Map.ofEntries(
            Map.entry("CC", "Et"), Map.entry("C", "Me"), Map.entry("Br", "Br"), Map.entry("Cl", "Cl"), Map.entry("F", "F"),
            Map.entry("I", "I"), Map.entry("[N+](=O)[O-]", "NO2"), Map.entry("OC", "OMe"), Map.entry("N", "NH2"),
            Map.entry("OO", "OOH"), Map.entry("S", "SH"), Map.entry("O", "OH"), Map.entry("=O", "oxo"), Map.entry("C#N", "CN"),
            Map.entry("OP(=O)(O)O", "P"), Map.entry("OS(=O)(=O)O", "S"), Map.entry("C(=O)O", "COOH"));

    final String text;
    /** The repeat marks and site lists, as they stand in the line. */
    private final String blocks;
    private final String trailer;
    /** By atom. */
    final Map<Integer, String> labels = new TreeMap<>();
    private final Map<Integer, String> marks = new TreeMap<>();
    private final Map<Integer, int[]> sites = new LinkedHashMap<>();
    /** By sn: the atoms of its carbons from C1 on. */
    private final Map<Integer, int[]> carbons = new TreeMap<>();

    Line(String line, String lists) {
        int bar = line.indexOf(" |");
        int end = line.lastIndexOf('|');
        text = bar < 0 ? line : line.substring(0, bar);
        trailer = bar < 0 || end + 2 > line.length() ? "" : line.substring(end + 2);
        String all = bar < 0 ? "" : line.substring(bar + 2, end);
        if (all.startsWith("$")) {
            int close = all.indexOf('$', 1);
            String[] entries = all.substring(1, close).split(";", -1);
            for (int i = 0; i < entries.length; i++) {
                if (!entries[i].isEmpty()) {
                    labels.put(i, entries[i]);
                }
            }
            all = all.substring(Math.min(close + 2, all.length()));
        }
        blocks = all;
        for (String block : blocks.isEmpty() ? new String[0] : blocks.split(",")) {
            String[] parts = block.split(":");
            if (parts[0].equals("Sg")) {
                marks.put(Integer.valueOf(parts[2]), parts[3]);
            } else {
                sites.put(Integer.valueOf(parts[1]), numbers(parts[2]));
            }
        }
        for (String list : lists.isEmpty() ? new String[0] : lists.split(";")) {
            carbons.put(Integer.valueOf(list.substring(0, list.indexOf(':'))), numbers(list.substring(list.indexOf(':') + 1)));
        }
    }

    private static int[] numbers(String dotted) {
        return Arrays.stream(dotted.split("[.]")).mapToInt(Integer::parseInt).toArray();
    }

    /** The line for CDK: without labels, and without what follows the blocks. */
    String unlabelled() {
        return blocks.isEmpty() ? text : text + " |" + blocks + "|";
    }

    /** How many carbons of a chain have a number of their own: those before its first repeat mark. */
    private int numbered(int[] atoms) {
        int n = 0;
        while (n < atoms.length && !marks.containsKey(atoms[n])) {
            n++;
        }
        return n;
    }

    /** What stands at each atom of the picture: the sn of a place, or the number of a carbon, the first with its sn if there are several. */
    Map<Integer, String> annotations() {
        Map<Integer, String> notes = new TreeMap<>();
        carbons.forEach((sn, atoms) -> {
            for (int i = 0; i < numbered(atoms); i++) {
                notes.put(atoms[i], i == 0 && carbons.size() > 1 ? "sn" + sn + " C1" : Integer.toString(i + 1));
            }
        });
        labels.forEach((atom, label) -> notes.merge(atom, label, (number, sn) -> sn + " " + number));
        return notes;
    }

    /** What the picture cannot say: sums, places that vary, chains that may be exchanged, and the atoms of the carbons. */
    List<String> words() {
        List<String> words = new ArrayList<>();
        for (String part : trailer.isEmpty() ? new String[0] : trailer.split(";")) {
            String inside = part.substring(part.indexOf('(') + 1, part.length() - 1);
            if (part.startsWith("constrain")) {
                words.add(inside.replace("+", " + ").replace("=", " = "));
            } else {
                words.add(String.join(", ", inside.split(",")) + " may be exchanged");
            }
        }
        List<String> floating = floating();
        // What is alike is said once: the group with its sites, and how many there are.
        Map<String, Integer> alike = new LinkedHashMap<>();
        int i = 0;
        for (int[] list : sites.values()) {
            alike.merge(floating.get(i++) + "\t" + sites(list), 1, Integer::sum);
        }
        alike.forEach((group, count) -> words.add(
                count == 1 ? group.replace("\t", " on one of ") : count + " " + group.replace("\t", ", each on one of ")));
        carbons.forEach((sn, atoms) -> words.add(carbons(sn, atoms)));
        return words;
    }

    /** The names of the groups without a position, in the order of the text: what follows each `.*`. */
    private List<String> floating() {
        List<String> found = new ArrayList<>();
        for (int at = text.indexOf(".*"); at >= 0; at = text.indexOf(".*", at + 1)) {
            int depth = 0;
            int end = at + 2;
            while (end < text.length() && (depth > 0 || text.charAt(end) != ')' && text.charAt(end) != '.')) {
                depth += text.charAt(end) == '(' ? 1 : text.charAt(end) == ')' ? -1 : 0;
                end++;
            }
            String branch = text.substring(at + 2, end);
            found.add(GROUPS.getOrDefault(branch, branch));
        }
        return found;
    }

    private String sites(int[] list) {
        for (Map.Entry<Integer, int[]> chain : carbons.entrySet()) {
            List<Integer> places = new ArrayList<>();
            boolean later = false;
            int own = numbered(chain.getValue());
            for (int i = 0; i < chain.getValue().length; i++) {
                int atom = chain.getValue()[i];
                if (Arrays.stream(list).anyMatch(site -> site == atom)) {
                    if (i < own) {
                        places.add(i + 1);
                    } else {
                        later = true;
                    }
                }
            }
            String of = carbons.size() > 1 ? " of sn" + chain.getKey() : "";
            if (!places.isEmpty()) {
                String behind = " and " + (of.isEmpty() ? "the" : "its") + " carbons from the first repeat on";
                return ranges(places, "C") + of + (later ? behind : "");
            }
            if (later) {
                return "the carbons" + of + " from the first repeat on";
            }
        }
        return "atoms " + ranges(Arrays.stream(list).boxed().toList(), "");
    }

    private String carbons(int sn, int[] atoms) {
        int own = numbered(atoms);
        String first = own == 0 ? "" : (own == 1 ? "C1 is atom " : "C1 to C" + own + " are atoms ") + ranges(boxed(atoms, 0, own), "");
        String rest = own == atoms.length ? "" : "the carbons from the first repeat on are atoms " + ranges(boxed(atoms, own, atoms.length), "");
        return "sn" + sn + ": " + first + (first.isEmpty() || rest.isEmpty() ? "" : "; ") + rest;
    }

    private static List<Integer> boxed(int[] atoms, int from, int to) {
        return Arrays.stream(atoms, from, to).boxed().toList();
    }

    /** 1, 3, 4, 5 as "1, 3 to 5". */
    private static String ranges(List<Integer> numbers, String prefix) {
        List<String> parts = new ArrayList<>();
        for (int i = 0; i < numbers.size(); ) {
            int j = i;
            while (j + 1 < numbers.size() && numbers.get(j + 1) == numbers.get(j) + 1) {
                j++;
            }
            parts.add(prefix + numbers.get(i) + (j == i ? "" : (j == i + 1 ? ", " : " to ") + prefix + numbers.get(j)));
            i = j + 1;
        }
        return String.join(", ", parts);
    }
}

/** The picture of a line. */
class Picture {
    private static final SmilesParser PARSER = new SmilesParser(SilentChemObjectBuilder.getInstance());
    private static final double SCREEN = 1.1;
    private static final double PAPER = 1.7;

    /** How many there are of each element, by its symbol: of pseudo atoms too, whose symbol is *. */
    final Map<String, Integer> atoms = new TreeMap<>();
    final int bonds;
    /** For a page that has other pictures too: no prolog, and no names that would stand there twice. */
    final String svg;
    private final IAtomContainer molecule;

    Picture(Line line) throws CDKException {
        molecule = PARSER.parseSmiles(line.unlabelled());
        molecule.atoms().forEach(atom -> atoms.merge(atom instanceof IPseudoAtom ? "*" : atom.getSymbol(), 1, Integer::sum));
        bonds = molecule.getBondCount();
        line.annotations().forEach((atom, note) -> molecule.getAtom(atom).setProperty(StandardGenerator.ANNOTATION_LABEL, note));
        String all = depict(SCREEN).toSvgStr("px");
        svg = all.substring(all.indexOf("<svg")).replaceAll(" id='[^']*'", "").replaceAll("\n *", "\n");
    }

    private Depiction depict(double zoom) throws CDKException {
        return new DepictionGenerator(new Font("SansSerif", Font.PLAIN, 13))
                .withZoom(zoom)
                .withPadding(4)
                .withAnnotationColor(new Color(0x1f5fa8))
                .withAnnotationScale(0.6)
                .depict(molecule);
    }

    /** An image that fits a room. */
    BufferedImage image(int width, int height) throws CDKException {
        double zoom = Math.min(PAPER, SCREEN * Math.min(width / size("width"), height / size("height")));
        return depict(zoom).toImg();
    }

    private double size(String side) {
        int at = svg.indexOf(" " + side + "='") + side.length() + 3;
        return Double.parseDouble(svg.substring(at, svg.indexOf("px'", at)));
    }
}

/** The sheet as a page of HTML, which needs no other file. */
class Page {
    private static final String HEAD = """
            <!DOCTYPE html>
            <html lang="en">
            <head>
            <meta charset="utf-8">
            <title>%1$s</title>
            <style>
            body { font: 15px/1.4 sans-serif; margin: 2em auto; max-width: 60em; padding: 0 1em; }
            section { border-top: 1px solid #999; padding: .6em 0; break-inside: avoid; }
            h2 { font-size: 1em; margin: 0; }
            p { margin: .2em 0; }
            code { font-size: .85em; overflow-wrap: anywhere; }
            svg { max-width: 100%%; height: auto; display: block; margin: .4em 0; }
            .refused { color: #8a1c1c; }
            .own { color: #555; font-weight: normal; }
            .seen { float: right; color: #555; font-weight: normal; }
            </style>
            </head>
            <body>
            <h1>%1$s</h1>
            <p>%2$s</p>
            """;

    static String html(String title, List<Row> rows) {
        StringBuilder page = new StringBuilder(HEAD.formatted(escape(title), escape(Page.about(rows))));
        for (Row row : rows) {
            page.append(row.accepted() ? accepted(row) : refused(row));
        }
        return page.append("</body>\n</html>\n").toString();
    }

    static String about(List<Row> rows) {
        long accepted = rows.stream().filter(Row::accepted).count();
        return rows.size() + " rows, " + accepted + " accepted. Small numbers are those of the carbons of a chain; what stands in (..) with a"
                + " letter is repeated so many times; a group whose bond crosses the chain has no place of its own there, and the sites that it"
                + " may have stand below. Atoms are counted from 0 along the line. That a line is accepted does not say that the compound can"
                + " be made.";
    }

    private static String head(Row row, String seen) {
        return "<h2>" + seen + "row " + escape(row.number) + " <span class=\"own\">" + escape(row.own) + "</span></h2>\n<p><b>"
                + escape(row.names) + "</b></p>\n";
    }

    private static String refused(Row row) {
        return "<section data-row=\"" + escape(row.number) + "\" data-answer=\"" + escape(row.answer) + "\">\n" + head(row, "")
                + "<p class=\"refused\">" + escape(row.refusal()) + "</p>\n</section>\n";
    }

    private static String accepted(Row row) {
        StringBuilder section = new StringBuilder("<section data-row=\"" + escape(row.number) + "\" data-answer=\"0\"");
        Picture picture = row.picture;
        if (picture != null) {
            String atoms = picture.atoms.entrySet().stream().map(Object::toString).collect(Collectors.joining(" "));
            section.append(" data-atoms=\"").append(atoms).append("\" data-bonds=\"").append(picture.bonds).append('"');
        }
        section.append(">\n").append(head(row, "<span class=\"seen\">seen: ______</span>"));
        section.append(picture == null ? "" : picture.svg);
        section.append("<p><code>").append(escape(row.lineText)).append("</code></p>\n");
        for (String words : row.words) {
            section.append("<p>").append(escape(words)).append("</p>\n");
        }
        return section.append("</section>\n").toString();
    }

    static String escape(String text) {
        return text.replace("&", "&amp;").replace("<", "&lt;").replace(">", "&gt;").replace("\"", "&quot;");
    }
}

/** The sheet on paper: pages of A4 as images, in a PDF. */
class Paper {
    private static final int WIDTH = 1240;
    private static final int HEIGHT = 1754;
    private static final int MARGIN = 80;
    private static final int ROOM = WIDTH - 2 * MARGIN;
    /** How high a picture may be. */
    private static final int TALL = 520;
    private static final String SEEN = "seen: ________";
    private static final Font PLAIN = new Font("SansSerif", Font.PLAIN, 19);
    private static final Font BOLD = new Font("SansSerif", Font.BOLD, 20);
    private static final Font FIXED = new Font("Monospaced", Font.PLAIN, 16);

    private final List<BufferedImage> pages = new ArrayList<>();
    private Graphics2D page;
    private int y;

    static byte[] pdf(String title, List<Row> rows) throws IOException {
        Paper paper = new Paper();
        paper.turn();
        paper.write(title, new Font("SansSerif", Font.BOLD, 28), Color.BLACK);
        paper.write(Page.about(rows), PLAIN, Color.BLACK);
        for (Row row : rows) {
            paper.put(row);
        }
        return new Pdf(paper.pages).bytes();
    }

    private void turn() {
        BufferedImage image = new BufferedImage(WIDTH, HEIGHT, BufferedImage.TYPE_INT_RGB);
        pages.add(image);
        page = image.createGraphics();
        page.setRenderingHint(RenderingHints.KEY_TEXT_ANTIALIASING, RenderingHints.VALUE_TEXT_ANTIALIAS_ON);
        page.setColor(Color.WHITE);
        page.fillRect(0, 0, WIDTH, HEIGHT);
        y = MARGIN;
    }

    private List<String> wrapped(String text, Font font) {
        FontMetrics metrics = page.getFontMetrics(font);
        List<String> lines = new ArrayList<>();
        String rest = text;
        while (metrics.stringWidth(rest) > ROOM) {
            int end = rest.length();
            while (metrics.stringWidth(rest.substring(0, end)) > ROOM) {
                end--;
            }
            int blank = rest.lastIndexOf(' ', end);
            end = blank > end / 2 ? blank + 1 : end;
            lines.add(rest.substring(0, end));
            rest = rest.substring(end);
        }
        lines.add(rest);
        return lines;
    }

    private int height(String text, Font font) {
        return wrapped(text, font).size() * page.getFontMetrics(font).getHeight();
    }

    private void write(String text, Font font, Color color) {
        for (String line : wrapped(text, font)) {
            int high = page.getFontMetrics(font).getHeight();
            if (y + high > HEIGHT - MARGIN) {
                turn();
            }
            page.setFont(font);
            page.setColor(color);
            page.drawString(line, MARGIN, y + page.getFontMetrics(font).getAscent());
            y += high;
        }
    }

    private void put(Row row) throws IOException {
        BufferedImage image = image(row);
        int high = 30 + height(row.head(), PLAIN) + height(row.names, BOLD) + (image == null ? 0 : image.getHeight() + 10);
        high += row.accepted() ? height(row.lineText, FIXED) : height(row.refusal(), PLAIN);
        for (String words : row.words) {
            high += height(words, PLAIN);
        }
        // A row stays on one page, unless it fills more than that.
        if (y + high > HEIGHT - MARGIN && y > MARGIN) {
            turn();
        }
        y += 14;
        page.setColor(Color.GRAY);
        page.drawLine(MARGIN, y, WIDTH - MARGIN, y);
        y += 8;
        if (row.accepted()) {
            FontMetrics metrics = page.getFontMetrics(PLAIN);
            page.setFont(PLAIN);
            page.drawString(SEEN, WIDTH - MARGIN - metrics.stringWidth(SEEN), y + metrics.getAscent());
        }
        write(row.head(), PLAIN, Color.DARK_GRAY);
        write(row.names, BOLD, Color.BLACK);
        if (image != null) {
            page.drawImage(image, MARGIN, y + 5, null);
            y += image.getHeight() + 10;
        }
        if (row.accepted()) {
            write(row.lineText, FIXED, Color.BLACK);
        } else {
            write(row.refusal(), PLAIN, new Color(0x8a1c1c));
        }
        for (String words : row.words) {
            write(words, PLAIN, Color.BLACK);
        }
    }

    private static BufferedImage image(Row row) throws IOException {
        try {
            return row.picture == null ? null : row.picture.image(ROOM, TALL);
        } catch (CDKException fault) {
            throw new IOException("row " + row.number, fault);
        }
    }
}

/** A PDF whose pages are images. */
class Pdf {
    private final ByteArrayOutputStream out = new ByteArrayOutputStream();
    private final List<Integer> starts = new ArrayList<>();

    Pdf(List<BufferedImage> pages) throws IOException {
        text("%PDF-1.4\n");
        StringBuilder kids = new StringBuilder();
        for (int i = 0; i < pages.size(); i++) {
            kids.append(3 + 3 * i).append(" 0 R ");
        }
        object("<< /Type /Catalog /Pages 2 0 R >>");
        object("<< /Type /Pages /Kids [" + kids + "] /Count " + pages.size() + " >>");
        for (int i = 0; i < pages.size(); i++) {
            int own = 3 + 3 * i;
            object("<< /Type /Page /Parent 2 0 R /MediaBox [0 0 595 842] /Contents " + (own + 1)
                    + " 0 R /Resources << /XObject << /P " + (own + 2) + " 0 R >> >> >>");
            stream("", "595 0 0 842 0 0 cm /P Do".getBytes(StandardCharsets.US_ASCII));
            BufferedImage page = pages.get(i);
            stream("/Type /XObject /Subtype /Image /Width " + page.getWidth() + " /Height " + page.getHeight()
                    + " /ColorSpace /DeviceRGB /BitsPerComponent 8 /Filter /FlateDecode ", packed(page));
        }
        int table = out.size();
        StringBuilder end = new StringBuilder("xref\n0 " + (starts.size() + 1) + "\n0000000000 65535 f \n");
        for (int start : starts) {
            end.append(String.format("%010d 00000 n \n", start));
        }
        text(end + "trailer << /Size " + (starts.size() + 1) + " /Root 1 0 R >>\nstartxref\n" + table + "\n%%EOF\n");
    }

    byte[] bytes() {
        return out.toByteArray();
    }

    private void text(String text) throws IOException {
        out.write(text.getBytes(StandardCharsets.US_ASCII));
    }

    private void object(String text) throws IOException {
        starts.add(out.size());
        text(starts.size() + " 0 obj\n" + text + "\nendobj\n");
    }

    private void stream(String entries, byte[] data) throws IOException {
        starts.add(out.size());
        text(starts.size() + " 0 obj\n<< " + entries + "/Length " + data.length + " >>\nstream\n");
        out.write(data);
        text("\nendstream\nendobj\n");
    }

    private static byte[] packed(BufferedImage page) throws IOException {
        int[] pixels = page.getRGB(0, 0, page.getWidth(), page.getHeight(), null, 0, page.getWidth());
        byte[] bytes = new byte[3 * pixels.length];
        for (int i = 0; i < pixels.length; i++) {
            bytes[3 * i] = (byte) (pixels[i] >> 16);
            bytes[3 * i + 1] = (byte) (pixels[i] >> 8);
            bytes[3 * i + 2] = (byte) pixels[i];
        }
        ByteArrayOutputStream packed = new ByteArrayOutputStream();
        try (DeflaterOutputStream deflater = new DeflaterOutputStream(packed, new Deflater(Deflater.BEST_SPEED))) {
            deflater.write(bytes);
        }
        return packed.toByteArray();
    }
}
