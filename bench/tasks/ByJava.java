import javax.xml.transform.TransformerFactory;
import javax.xml.transform.stream.StreamResult;
import javax.xml.transform.stream.StreamSource;

/** Applies an XSLT sheet with what Java itself has: java ByJava SHEET < DOCUMENT > RESULT */
public class ByJava {
    public static void main(String[] words) throws Exception {
        var sheet = TransformerFactory.newInstance().newTransformer(new StreamSource(new java.io.File(words[0])));
        sheet.transform(new StreamSource(System.in), new StreamResult(System.out));
    }
}
